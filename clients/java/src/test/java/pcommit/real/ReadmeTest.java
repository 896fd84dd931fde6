package pcommit.real;

import static org.junit.jupiter.api.Assertions.assertEquals;
import static org.junit.jupiter.api.Assertions.assertTrue;

import java.io.File;
import java.nio.file.Files;
import java.nio.file.Path;
import java.util.List;
import java.util.regex.Matcher;
import java.util.regex.Pattern;
import javax.tools.JavaCompiler;
import javax.tools.ToolProvider;
import org.junit.jupiter.api.Test;
import org.junit.jupiter.api.io.TempDir;
import place.Child;
import place.Database;
import place.Java;

/** The code in clients/java/README.md runs as it stands there. */
final class ReadmeTest {
    private static final String FRAME = """
            import java.nio.file.Path;
            import java.sql.Connection;
            import javax.sql.XAConnection;
            import org.mariadb.jdbc.MariaDbDataSource;
            import org.postgresql.xa.PGXADataSource;
            import pcommit.client.Cluster;
            import pcommit.xa.PaxosTransactionManager;
            import pcommit.xa.PrepareAnswer;

            public final class Readme {
                public static void main(final String[] words) throws Exception {
                    final PGXADataSource postgresql = new PGXADataSource();
                    postgresql.setUrl(words[0]);
                    final MariaDbDataSource mariadb = new MariaDbDataSource(words[1]);
            CODE
                    System.out.println("it ran");
                    System.exit(0);
                }
            }
            """;
    private static final int LINES = 12;

    @TempDir
    private Path folder;

    @Test
    void itsCodeRuns() throws Exception {
        final String page = Files.readString(Path.of(System.getProperty("pcommit.examples"), "..", "clients", "java", "README.md"));
        final Matcher code = Pattern.compile("```java\n(.*?)```", Pattern.DOTALL).matcher(page);
        assertTrue(code.find());
        assertEquals(LINES, code.group(1).lines().count());
        final var place = RealPlace.get().place();
        final String own = code.group(1).replace("\"cluster.toml\"", "\"" + place.nodes().file() + "\"");
        final Path source = Files.writeString(folder.resolve("Readme.java"), FRAME.replace("CODE", own));
        final JavaCompiler compiler = ToolProvider.getSystemJavaCompiler();
        assertEquals(0, compiler.run(null, null, null, "-d", folder.toString(), source.toString()));
        final int before = place.mariadb().balance(1);
        final List<String> options = List.of("-cp", folder + File.pathSeparator + Java.classPath());
        final Child child = Child.start(Java.command(options, "Readme", place.postgresql().url(), place.mariadb().url()),
                folder.resolve("log"));
        assertEquals(0, child.await(), child.lastLine());
        assertEquals("it ran", child.lastLine());
        assertEquals(before + 10, place.mariadb().balance(1));
        assertTrue(place.postgresql().sum() <= 500 * Database.FIRST);
    }
}
