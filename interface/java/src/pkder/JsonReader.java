package pkder;

import java.util.ArrayList;
import java.util.HashMap;
import java.util.HexFormat;
import java.util.List;
import java.util.Map;
import java.util.regex.Matcher;
import java.util.regex.Pattern;

/**
 * Reads JSON (RFC 8259), as far as reports of the library take it: no key stands twice in an object, no half of a
 * character by itself in a text, and lists and objects are nested to a limit.
 */
final class JsonReader {
    // (those of reports are 7 deep)
    private static final int DEPTH = 32;
    private static final Pattern WORD =
        Pattern.compile("true|false|null|-?(?:0|[1-9][0-9]*)(?:\\.[0-9]+)?(?:[eE][+-]?[0-9]+)?");

    private final String text;
    private int at;

    private JsonReader(String text) {
        this.text = text;
    }

    /** The value that the text is, the whole of it; IllegalStateException is thrown where it is none. */
    static Json read(String text) {
        JsonReader reader = new JsonReader(text);
        Json found = reader.value(DEPTH);
        reader.blanks();
        Json.require(reader.at == text.length());
        return found;
    }

    /** A value, in which lists and objects are nested to this depth. */
    private Json value(int depth) {
        blanks();
        switch (ahead()) {
            case '{':
                return members(depth);
            case '[':
                return items(depth);
            case '"':
                return new Json.Text(text());
            default:
                return word();
        }
    }

    private Json members(int depth) {
        Map<String, Json> members = new HashMap<>();
        each('{', '}', depth, () -> {
            blanks();
            String key = text();
            blanks();
            take(':');
            Json.require(members.put(key, value(depth - 1)) == null);
        });
        return new Json.Members(members);
    }

    private Json items(int depth) {
        List<Json> items = new ArrayList<>();
        each('[', ']', depth, () -> items.add(value(depth - 1)));
        return new Json.Items(items);
    }

    /** What stands between these, with commas between. */
    private void each(char begin, char end, int depth, Runnable item) {
        Json.require(depth > 0);
        take(begin);
        blanks();
        if (isTaken(end)) {
            return;
        }
        do {
            item.run();
            blanks();
        } while (isTaken(','));
        take(end);
    }

    private String text() {
        take('"');
        StringBuilder found = new StringBuilder();
        while (!isTaken('"')) {
            char it = next();
            Json.require(it >= ' ');
            if (it == '\\') {
                escaped(found);
            } else {
                found.append(it);
            }
        }
        return found.toString();
    }

    /** Appends what stands after a backslash. */
    private void escaped(StringBuilder found) {
        char letter = next();
        int place = "\"\\/bfnrt".indexOf(letter);
        if (place >= 0) {
            found.append("\"\\/\b\f\n\r\t".charAt(place));
            return;
        }
        Json.require(letter == 'u');
        char unit = unit();
        found.append(unit);
        if (Character.isHighSurrogate(unit)) {
            take('\\');
            take('u');
            char second = unit();
            Json.require(Character.isLowSurrogate(second));
            found.append(second);
        } else {
            Json.require(!Character.isLowSurrogate(unit));
        }
    }

    /** The unit of UTF-16 of four hexadecimal digits. */
    private char unit() {
        int unit = 0;
        for (int digit = 0; digit < 4; digit++) {
            char it = next();
            Json.require(HexFormat.isHexDigit(it));
            unit = 16 * unit + HexFormat.fromHexDigit(it);
        }
        return (char) unit;
    }

    private Json word() {
        Matcher found = WORD.matcher(text).region(at, text.length());
        Json.require(found.lookingAt());
        at = found.end();
        return new Json.Word(found.group());
    }

    private void blanks() {
        while (at < text.length() && " \t\n\r".indexOf(text.charAt(at)) >= 0) {
            at++;
        }
    }

    private char ahead() {
        Json.require(at < text.length());
        return text.charAt(at);
    }

    private char next() {
        char found = ahead();
        at++;
        return found;
    }

    private void take(char due) {
        Json.require(next() == due);
    }

    /** Whether this stands here, and is taken. */
    private boolean isTaken(char due) {
        boolean isThere = ahead() == due;
        at += isThere ? 1 : 0;
        return isThere;
    }
}
