package place;

import java.io.IOException;
import java.nio.file.Files;
import java.nio.file.Path;
import java.sql.SQLException;
import java.time.Duration;
import java.util.ArrayList;
import java.util.Comparator;
import java.util.List;
import java.util.Map;
import java.util.stream.Stream;
import javax.sql.XADataSource;
import org.postgresql.xa.PGXADataSource;

/** A PostgreSQL server in a folder, on loopback. A server doesn't run as root, so root starts it as the user postgres. */
public final class PostgreSqlServer implements Server, Database {
    private static final Map<String, String> SETTINGS = Map.of("listen_addresses", "127.0.0.1", "unix_socket_directories", "",
            "max_prepared_transactions", "200", "max_connections", "200");
    private final Path data;
    private final Path log;
    private final Path programs;
    private final int port = Hosts.freePort();
    private Child child;

    PostgreSqlServer(final Path folder) throws IOException, InterruptedException {
        data = folder.resolve("postgresql");
        log = folder.resolve("postgresql.log");
        programs = programs();
        Hosts.folderOf("postgres", data);
        final List<String> words = List.of(programs.resolve("initdb").toString(), "-A", "trust", "-U", "postgres", "-D", data.toString(),
                "--no-sync");
        Child.run(Hosts.as("postgres", words), folder.resolve("postgresql-initdb.log"));
    }

    /** Where the newest PostgreSQL's programs are. */
    private static Path programs() throws IOException {
        try (Stream<Path> versions = Files.list(Path.of("/usr/lib/postgresql"))) {
            return versions.map(version -> version.resolve("bin")).filter(bin -> Files.exists(bin.resolve("postgres")))
                    .max(Comparator.comparingInt(bin -> Integer.parseInt(bin.getName(3).toString())))
                    .orElseThrow(() -> new IOException("PostgreSQL isn't installed"));
        }
    }

    @Override
    public String name() {
        return "PostgreSQL";
    }

    @Override
    public Duration processorTime() {
        return child.processorTime();
    }

    @Override
    public void start() throws IOException, InterruptedException {
        final List<String> words = new ArrayList<>(List.of(programs.resolve("postgres").toString(), "-D", data.toString(), "-p",
                Integer.toString(port)));
        SETTINGS.forEach((name, value) -> words.addAll(List.of("-c", name + "=" + value)));
        child = Child.start(Hosts.as("postgres", words), log);
        child.until(this::isServing);
    }

    /** SIGQUIT has its processes end at once, with nothing written: its next start recovers as after a crash. */
    @Override
    public void kill() throws IOException, InterruptedException {
        child.stop("QUIT");
    }

    @Override
    public XADataSource source() {
        final PGXADataSource source = new PGXADataSource();
        source.setUrl(url());
        return source;
    }

    @Override
    public String url() {
        return "jdbc:postgresql://127.0.0.1:" + port + "/postgres?user=postgres";
    }

    @Override
    public String driver() {
        return PGXADataSource.class.getName();
    }

    @Override
    public int port() {
        return port;
    }

    @Override
    public boolean isLocked(final SQLException error) {
        return "55P03".equals(error.getSQLState());
    }
}
