#!/bin/sh
# Builds a program that stands on the library of a crate: `bench/build.sh CRATE PROGRAM.rs OUT ARGUMENT..`. The gate runs each program of
# the repository, so that this one is proved and built in a folder of its own, beside copies of the libraries. Those are proved in their
# places, where they aren't yet. It is run once, with the arguments.
[ $# -ge 3 ] || { echo "usage: bench/build.sh CRATE PROGRAM.rs OUT ARGUMENT.." >&2; exit 2; }
repository=$(cd "$(dirname "$0")/.." && pwd)
crate=$1 source=$2 out=$3
shift 3
name=bench_$(basename "$source" .rs)
scratch=$(mktemp -d)
trap 'rm -rf "$scratch"' EXIT
trap 'exit 1' INT TERM

# a crate of the repository after those that it stands on
below() {
    for one in $(sed -n "s/^$1: *//p" "$repository/crates.txt"); do
        if [ -d "$repository/crates/$one" ]; then below "$one"; fi
    done
    echo "$1"
}

build() {
    cd "$repository/crates/$crate" && rt lib || exit 1
    mkdir -p "$scratch/crates/$name/src"
    libraries=$(below "$crate" | awk '!seen[$0]++')
    for library in $libraries; do
        tar -C "$repository/crates" --exclude=incremental -cf - "$library" | tar -C "$scratch/crates" -xf - || exit 1
        grep "^$library:" "$repository/crates.txt" >>"$scratch/crates.txt" || exit 1
    done
    echo "$name: $(echo "$libraries" | tr '\n' ' ')anyhow" >>"$scratch/crates.txt"
    cp "$source" "$scratch/crates/$name/src/main.rt"
    for module in $(sed -n 's/^mod \(.*\);$/\1/p' "$source"); do
        cp "$(dirname "$source")/$module.rs" "$scratch/crates/$name/src/$module.rt"
    done
    cd "$scratch/crates/$name" && rt run -- "$@"
}
case $source in /*) ;; *) source=$PWD/$source ;; esac
case $out in /*) ;; *) out=$PWD/$out ;; esac
(build "$@") >"$scratch/log" 2>&1 && cp "$scratch/crates/$name/out/$name" "$out" || { cat "$scratch/log" >&2; exit 1; }
