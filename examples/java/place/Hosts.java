package place;

import java.io.IOException;
import java.net.InetAddress;
import java.net.ServerSocket;
import java.nio.file.Files;
import java.nio.file.Path;
import java.util.ArrayList;
import java.util.List;

/** What the servers need of the host: free ports, and users that aren't root. */
final class Hosts {
    private static final boolean IS_ROOT = "root".equals(System.getProperty("user.name"));

    private Hosts() { }

    static int freePort() throws IOException {
        try (ServerSocket server = new ServerSocket(0, 1, InetAddress.getLoopbackAddress())) {
            return server.getLocalPort();
        }
    }

    /** A command as a user, where this process is root's: the process that is started is the command itself. */
    static List<String> as(final String user, final List<String> command) {
        if (!IS_ROOT) {
            return command;
        }
        final List<String> words = new ArrayList<>(List.of("setpriv", "--reuid=" + user, "--regid=" + user, "--init-groups", "--"));
        words.addAll(command);
        return words;
    }

    /** Makes a folder that a user owns. */
    static void folderOf(final String user, final Path folder) throws IOException {
        Files.createDirectories(folder);
        if (IS_ROOT) {
            Files.setOwner(folder, folder.getFileSystem().getUserPrincipalLookupService().lookupPrincipalByName(user));
        }
    }
}
