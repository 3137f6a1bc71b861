package pkder;

import java.io.IOException;
import java.io.InputStream;
import java.io.OutputStream;
import java.nio.file.Files;
import java.nio.file.Path;

/** Loads the native library: the file that the property pkder.library names, or the one in the jar. */
final class Library {
    private static final String PROPERTY = "pkder.library";

    private Library() {}

    static void load() {
        String named = System.getProperty(PROPERTY);
        if (named != null) {
            System.load(Path.of(named).toAbsolutePath().toString());
            return;
        }
        String machine = System.getProperty("os.name") + "-" + System.getProperty("os.arch");
        try (InputStream file = Library.class.getResourceAsStream("/native/" + machine + "/libpkder_jni.so")) {
            if (file == null) {
                throw new UnsatisfiedLinkError("pkder.jar has no native library for " + machine);
            }
            loadCopy(file);
        } catch (IOException why) {
            UnsatisfiedLinkError error = new UnsatisfiedLinkError("no file for the native library, nor -D" + PROPERTY);
            error.initCause(why);
            throw error;
        }
    }

    /** Loads what the stream has, by a file that this user alone may write and that is gone afterwards. */
    private static void loadCopy(InputStream file) throws IOException {
        Path copy = Files.createTempFile("pkder", ".so");
        try {
            try (OutputStream to = Files.newOutputStream(copy)) {
                file.transferTo(to);
            }
            System.load(copy.toString());
        } finally {
            Files.delete(copy);
        }
    }
}
