# What each script of this folder begins with, which reads this file: where it stands, a folder for what it writes, and the program that it
# measures.
here=$(cd "$(dirname "$0")" && pwd)
scratch=$(mktemp -d)
trap 'rm -rf "$scratch"' EXIT
trap 'exit 1' INT TERM

# the program that was given or is empty, the crate that NAME.rs stands on, NAME, arguments: leaves the program at $program, built where none
# was given
take_program() {
    program=$1 crate=$2 name=$3
    shift 3
    [ -z "$program" ] || return 0
    program=$scratch/$name
    "$here/build.sh" "$crate" "$here/$name.rs" "$program" "$@" || exit 1
}
