import java.io.BufferedInputStream;
import java.io.ByteArrayOutputStream;
import java.io.IOException;
import java.io.InputStream;
import java.nio.charset.StandardCharsets;
import java.nio.file.Files;
import java.nio.file.Path;

/** Cells of a table, one after another. They are read octet by octet: as lines, the longest would fill a small heap. */
final class Table implements AutoCloseable {
    private final InputStream from;

    Table(Path file) throws IOException {
        from = new BufferedInputStream(Files.newInputStream(file));
    }

    /** Whether there is no further row. */
    boolean isAtEnd() throws IOException {
        from.mark(1);
        boolean isAtEnd = from.read() < 0;
        from.reset();
        return isAtEnd;
    }

    String text() throws IOException {
        ByteArrayOutputStream cell = new ByteArrayOutputStream();
        for (int octet = from.read(); octet != '\t' && octet != '\n'; octet = from.read()) {
            cell.write(octet);
        }
        return cell.toString(StandardCharsets.UTF_8);
    }

    /** The octets of a cell in hex. */
    byte[] octets() throws IOException {
        ByteArrayOutputStream cell = new ByteArrayOutputStream();
        for (int digit = from.read(); digit != '\t' && digit != '\n'; digit = from.read()) {
            cell.write(Character.digit(digit, 16) << 4 | Character.digit(from.read(), 16));
        }
        return cell.toByteArray();
    }

    @Override
    public void close() throws IOException {
        from.close();
    }
}
