#!/bin/sh
# A tour: makes organisations, asks a CSV text, is refused, keeps a file only where there is an answer, and answers a request.
# Each step shows its command first. Before `carmuguur build` each takes one to two minutes.
here=$(CDPATH='' cd -- "$(dirname -- "$0")" && pwd) || exit 1
work=${TMPDIR:-/tmp}/carmuguur-tour-$$
mkdir -m 700 "$work" || exit 1
trap 'rm -rf "$work"' EXIT
cd "$work" || exit 1

carmuguur() {
    "$here/../carmuguur" "$@"
}

# Shows a command, runs it, and shows its status if that isn't 0.
try() {
    printf '\n$ %s\n' "$1"
    eval "$1" || printf '(status %s)\n' "$?"
}

# Capitals whose names have a comma, an apostrophe, or letters beyond ASCII.
cat > capitals.csv << 'END'
Name
Abuja
Chișinău
N'Djamena
Nukuʻalofa
São Tomé
"Washington, D.C."
END

printf 'An organisation in a file, acme.db: its id and its administrator. The secret is in a variable, so that no other user of the\nmachine sees it.\n'
try "export SECRET=\$(openssl rand -hex 24)"
try "carmuguur acme.db 0 org-add 'Atlas & Co' env:SECRET"

printf '\nThe next one has the next id, and its secret in a file. With - in place of the file all tables are in memory, and end with the run.\n'
try 'openssl rand -hex 24 > bolt.key'
try 'carmuguur acme.db 0 org-add Bolt file:bolt.key'

printf '\nThe rows of a CSV text, with an id each.\n'
try "carmuguur - 0 csvq 'SELECT Id, Name FROM Row__c' < capitals.csv"

printf '\nA refusal is a line on standard output, with status 65: the heading has no such name.\n'
try "carmuguur - 0 csvq 'SELECT Id, Name, Country__c FROM Row__c' < capitals.csv"

printf '\nSo keep a file only where the status is 0. This one goes:\n'
try "carmuguur - 0 csvq 'SELECT Country__c FROM Row__c' < capitals.csv > refused.csv || rm refused.csv"

printf '\nAnd this one stays:\n'
try "carmuguur - 0 csvq 'SELECT Id, Name FROM Row__c' < capitals.csv > answer.csv || rm answer.csv"
try 'ls'
try 'tail -n 1 answer.csv'

printf '\nA request of HTTP is answered. Without a key there is no caller.\n'
try "printf 'GET /x HTTP/1.1\\r\\n\\r\\n' | carmuguur acme.db 0 answer; echo"

printf '\nA wrong command line has a line on standard error, and status 64.\n'
try "carmuguur - 0 csvq"
