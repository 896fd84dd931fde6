#!/bin/sh
# The tests of the Java client: test.sh PROGRAM [MINUTES [SEED]]. First JUnit's, alone and with real servers; then the soak, for so many
# minutes, 20 if it isn't said.
here=$(cd "$(dirname "$0")" && pwd)
program=$(realpath "${1:?usage: test.sh PROGRAM [MINUTES [SEED]]}")
out=$here/../../bin/java
"$here/needs.sh" || exit 1
mkdir -p "$out"
JAVA_OPTIONS="-Dpcommit.node=$program -Dpcommit.examples=$here/../../examples" "$here/run.sh" org.junit.platform.console.ConsoleLauncher \
    --disable-banner --disable-ansi-colors --details=tree --scan-class-path="$out/test-classes" || exit 1
"$here/run.sh" pcommit.real.Soak "$program" "${2:-20}" $3
