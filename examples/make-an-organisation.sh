#!/bin/sh
# Makes an organisation, and shows how a secret that isn't of its form is refused.
here=$(CDPATH='' cd -- "$(dirname -- "$0")" && pwd) || exit 1
SECRET=$(openssl rand -hex 24) || exit 1
export SECRET
"$here/../carmuguur" - 0 org-add 'Söhne & Co' env:SECRET
"$here/../carmuguur" - 0 org-add Acme short
