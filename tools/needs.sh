#!/bin/sh
# Says in one line which of the commands named aren't installed, and fails where there is one: `tools/needs.sh rt python3 cc`.
missing=
for command in "$@"; do
    command -v "$command" >/dev/null 2>&1 || missing="$missing $command"
done
[ -z "$missing" ] && exit 0
echo "pcommit: not installed:$missing (rt is the command of the Rattle kit; python3 runs rt; cc is any C compiler, for the tests)" >&2
exit 1
