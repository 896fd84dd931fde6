#!/bin/sh
# Prints how many instructions and appends an input takes at an acceptor and at a resource manager, over a record in memory and over one in a
# file, one by one and in groups of 1, 8 and 64, and how many times the instructions of steps that is: `bench/groups.sh [PROGRAM]`. The
# program is bench/groups.rs as bench/build.sh leaves it, and is built where it isn't given. It needs valgrind. The file stands in the folder
# for temporary files, and what the operating system does isn't counted.
. "$(dirname "$0")/start.sh"
take_program "$1" node_core groups acceptor step 1 1

# role, way, and the file if there is one: the instructions of a run, and what it printed
counted() {
    valgrind --tool=callgrind --callgrind-out-file="$scratch/callgrind" "$program" "$1" "$2" 640 4 $3 >"$scratch/counts" 2>/dev/null || exit 1
    read -r inputs appends <"$scratch/counts"
    taken=$(sed -n 's/^summary: //p' "$scratch/callgrind")
}

for file in '' "$scratch/record"; do
    for role in acceptor manager; do
        counted "$role" 0 "$file"
        opened=$taken before=$appends
        for way in step 1 8 64; do
            counted "$role" "$way" "$file"
            each=$(((taken - opened) / inputs))
            [ "$way" = step ] && steps=$each
            awk -v device="${file:+file}" -v role="$role" -v way="$way" -v each="$each" -v steps="$steps" -v appends="$((appends - before))" \
                -v inputs="$inputs" 'BEGIN { printf "%s, %s, %s: %d instructions an input, %.2f times a step, %.4f appends\n",
                    device ? "file" : "memory", role, way, each, each / steps, appends / inputs }'
        done
    done
done
