#!/bin/sh
# Loads a CSV text with any heading and asks a query of it: sed gives the columns the names that fields have.
here=$(CDPATH='' cd -- "$(dirname -- "$0")" && pwd) || exit 1
printf 'name,home town\nAda,London\n"Hopper, Grace",New York\nZoë,\n' |
    sed '1s/name/Name/; 1s/home town/Home_Town__c/' |
    "$here/../carmuguur" - 0 csvq 'SELECT Id, Name, Home_Town__c FROM Row__c ORDER BY Home_Town__c DESC NULLS LAST'
