#!/bin/sh
# Makes the two keys of a new cluster in a folder, readable by their owner alone: `keys.sh [FOLDER]`. Keys that are there stay.
folder=${1:-.}
umask 077
for name in nodes clients; do
    [ -e "$folder/$name.key" ] && echo "$folder/$name.key is there already" && continue
    od -An -N32 -tx1 /dev/urandom | tr -d ' \n' >"$folder/$name.key" || exit 1
    echo >>"$folder/$name.key"
    echo "made $folder/$name.key"
done
