package place;

import java.io.IOException;
import java.nio.file.Files;
import java.nio.file.Path;
import java.sql.SQLException;
import java.time.Duration;
import java.util.List;
import javax.sql.XADataSource;
import org.mariadb.jdbc.MariaDbDataSource;

/** A MariaDB server in a folder, on loopback. */
public final class MariaDbServer implements Server, Database {
    private static final int LOCK_WAIT_TIMEOUT = 1205;
    private final Path data;
    private final Path log;
    private final Path first;
    private final int port = Hosts.freePort();
    private Child child;

    MariaDbServer(final Path folder) throws IOException, InterruptedException {
        data = folder.resolve("mariadb");
        log = folder.resolve("mariadb.log");
        first = folder.resolve("mariadb-first.sql");
        Files.writeString(first, "CREATE DATABASE IF NOT EXISTS bank;\nCREATE OR REPLACE USER bank@'127.0.0.1' IDENTIFIED BY 'bank';\n"
                + "GRANT ALL ON *.* TO bank@'127.0.0.1';\nCREATE OR REPLACE USER bank@localhost IDENTIFIED BY 'bank';\n"
                + "GRANT ALL ON *.* TO bank@localhost;\n");
        Hosts.folderOf("mysql", data);
        Child.run(Hosts.as("mysql", List.of("mariadb-install-db", "--no-defaults", "--datadir=" + data,
                "--auth-root-authentication-method=normal", "--skip-test-db")), folder.resolve("mariadb-install.log"));
    }

    @Override
    public String name() {
        return "MariaDB";
    }

    @Override
    public Duration processorTime() {
        return child.processorTime();
    }

    @Override
    public void start() throws IOException, InterruptedException {
        child = Child.start(Hosts.as("mysql", List.of("/usr/sbin/mariadbd", "--no-defaults", "--datadir=" + data, "--socket=" + data + "/s",
                "--port=" + port, "--bind-address=127.0.0.1", "--pid-file=" + data + "/pid", "--init-file=" + first,
                        "--max-connections=300",
                "--innodb-flush-log-at-trx-commit=1", "--innodb-lock-wait-timeout=3")), log);
        child.until(this::isServing);
    }

    @Override
    public void kill() throws InterruptedException {
        child.kill();
    }

    @Override
    public XADataSource source() {
        return new MariaDbDataSource(url());
    }

    @Override
    public String url() {
        return "jdbc:mariadb://127.0.0.1:" + port + "/bank?user=bank&password=bank";
    }

    @Override
    public String driver() {
        return MariaDbDataSource.class.getName();
    }

    @Override
    public int port() {
        return port;
    }

    @Override
    public boolean isLocked(final SQLException error) {
        return error.getErrorCode() == LOCK_WAIT_TIMEOUT;
    }
}
