#!/bin/sh
# Builds the jar, the tests, the examples and the bench to bin/java, and runs a class of them: run.sh CLASS [WORD ...]. Options of the
# virtual machine stand in JAVA_OPTIONS.
here=$(cd "$(dirname "$0")" && pwd)
out=$here/../../bin/java
"$here/build.sh" "$out" tests || exit 1
# shellcheck disable=SC2086
exec java -Djava.util.logging.SimpleFormatter.format='%1$tT.%1$tL %4$s %5$s%n' $JAVA_OPTIONS \
    -cp "$out/pcommit-xa.jar:$out/test-classes:$("$here/class-path.sh")" "$@"
