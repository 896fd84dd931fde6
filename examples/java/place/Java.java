package place;

import java.io.File;
import java.nio.file.Path;
import java.util.ArrayList;
import java.util.Arrays;
import java.util.List;
import java.util.stream.Collectors;

/** Commands that run a class of this program's class path in a process of its own. */
public final class Java {
    private Java() { }

    /** The class path of this process, for one that runs in another folder. */
    public static String classPath() {
        final String[] entries = System.getProperty("java.class.path").split(File.pathSeparator);
        return Arrays.stream(entries).map(entry -> Path.of(entry).toAbsolutePath().toString())
                .collect(Collectors.joining(File.pathSeparator));
    }

    /** The command, with options of the virtual machine before the class. */
    public static List<String> command(final List<String> options, final String mainClass, final String... words) {
        final List<String> command = new ArrayList<>(List.of(Path.of(System.getProperty("java.home"), "bin", "java").toString(),
                "-XX:+UseSerialGC",
                "-XX:TieredStopAtLevel=" + System.getProperty("place.tier", "4"), "-cp", classPath()));
        command.addAll(options);
        command.add(mainClass);
        command.addAll(List.of(words));
        return command;
    }
}
