#!/bin/sh
# Says in one line which of Debian's packages aren't installed that the demonstration, the tests and the bench of the Java client need.
packages="openjdk-17-jdk-headless libpostgresql-jdbc-java libmariadb-java libactivemq-java libgeronimo-jta-1.2-spec-java
    libgeronimo-jms-1.1-spec-java junit5 libbtm-java postgresql mariadb-server activemq"
jars=/usr/share/java
missing=
command -v javac >/dev/null && [ "$(javac -version 2>&1 | sed 's/javac \([0-9]*\).*/\1/')" -ge 17 ] || missing=java
for jar in postgresql mariadb-java-client activemq-client activemq-broker activemq-kahadb-store geronimo-jta-1.2-spec \
    geronimo-jms_1.1_spec junit-jupiter-engine btm; do
    [ -e "$jars/$jar.jar" ] || missing="$missing $jar.jar"
done
ls /usr/lib/postgresql/*/bin/postgres >/dev/null 2>&1 || missing="$missing postgres"
[ -x /usr/sbin/mariadbd ] || missing="$missing mariadbd"
[ -z "$missing" ] && exit 0
echo "not installed ($missing): apt-get install" $packages >&2
exit 1
