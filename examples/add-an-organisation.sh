#!/bin/sh
# Adds an organisation to a store that is served. No route adds one, so the server ends for a moment, and starts again.
#
#   add-an-organisation.sh NAME
#
# It prints the key of the organisation's administrator, which isn't kept anywhere else. STORE names the file, STOP and START
# the commands that end and start the server, CARMUGUUR the program.
set -u
store=${STORE:-/var/lib/carmuguur/store.db}
stop=${STOP:-systemctl stop carmuguur}
start=${START:-systemctl start carmuguur}
program=${CARMUGUUR:-carmuguur}

if [ $# -ne 1 ]; then
    echo 'add-an-organisation.sh: the word is NAME' >&2
    exit 64
fi
secret=$(openssl rand -hex 24) || exit 1
$stop || exit 1
trap '$start' EXIT
ids=$(SECRET=$secret "$program" "$store" 0 org-add "$1" env:SECRET) || {
    status=$?
    # A refusal is on standard output.
    printf '%s\n' "$ids" >&2
    exit "$status"
}
printf '%s!%s!%s\n' "${ids% *}" "${ids#* }" "$secret"
