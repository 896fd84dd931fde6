#!/bin/sh
# Builds the jar with javac and Debian's jars: build.sh OUT [tests]. OUT/pcommit-xa.jar is the jar; with `tests` the tests, the examples and
# the bench are compiled to OUT/test-classes too. Says in one line what isn't installed. A public item without its Javadoc is refused.
here=$(cd "$(dirname "$0")" && pwd)
top=$(cd "$here/../.." && pwd)
out=${1:?usage: build.sh OUT [tests]}
jars=/usr/share/java
set -e
"$here/needs.sh"
mkdir -p "$out"
out=$(cd "$out" && pwd)
rm -rf "$out/classes"
javac -Xlint:all -Xdoclint:all/protected -Werror --release 17 -d "$out/classes" -cp "$jars/geronimo-jta-1.2-spec.jar:$jars/geronimo-jms_1.1_spec.jar" \
    $(find "$here/src/main/java" -name '*.java')
jar --create --file "$out/pcommit-xa.jar" -C "$out/classes" .
[ "$2" = tests ] || exit 0
rm -rf "$out/test-classes"
path=$out/pcommit-xa.jar:$("$here/class-path.sh")
javac -Xlint:all -Xlint:-processing -Xlint:-path -Werror --release 17 -d "$out/test-classes" -cp "$path" \
    $(find "$here/src/test/java" "$top/examples/java" "$top/bench/java" -name '*.java')
