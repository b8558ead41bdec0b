#!/bin/bash
# Of what `rt check` prints, passes on the lines that say how far it is, at most one every five seconds:
# rt check | tools/progress.sh
set -u
next=0
while IFS= read -r line; do
    if [[ $line == "checked "* && $SECONDS -ge $next ]]; then
        echo "$line"
        next=$((SECONDS + 5))
    fi
done
