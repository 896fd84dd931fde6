#!/bin/sh
# Prints the class path of Debian's jars: the drivers, the broker, BTM, JUnit and what they need.
jars=/usr/share/java
path=
for jar in postgresql mariadb-java-client activemq-client activemq-broker activemq-kahadb-store activemq-protobuf activemq-openwire-legacy \
    hawtbuf geronimo-jms_1.1_spec geronimo-jta-1.2-spec geronimo-j2ee-management-1.1-spec slf4j-api slf4j-jdk14 btm \
    junit-jupiter-api junit-jupiter-engine junit-jupiter-params junit-platform-commons junit-platform-engine junit-platform-launcher \
    junit-platform-console junit-platform-reporting opentest4j opentest4j-reporting-events apiguardian-api picocli univocity-parsers; do
    path="$path:$jars/$jar.jar"
done
echo "${path#:}"
