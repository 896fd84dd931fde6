package pcommit.client;

import java.util.ArrayList;
import java.util.LinkedHashMap;
import java.util.List;
import java.util.Map;

/** Reads as much of TOML as clusters' files have: strings, whole numbers, booleans, inline tables, tables and lists of tables. */
final class TomlReader {
    private final String text;
    private int place;

    private TomlReader(final String text) {
        this.text = text;
    }

    /** The keys of a file with their values: String, Long, Boolean, Map, or a List of Maps. */
    static Map<String, Object> read(final String text) throws ClusterFileException {
        return new TomlReader(text.replace("\r\n", "\n")).file();
    }

    private Map<String, Object> file() throws ClusterFileException {
        final Map<String, Object> top = new LinkedHashMap<>();
        Map<String, Object> table = top;
        while (skipToLine()) {
            if (text.startsWith("[[", place)) {
                table = new LinkedHashMap<>();
                append(top, header("[[", "]]"), table);
            } else if (text.charAt(place) == '[') {
                table = new LinkedHashMap<>();
                put(top, header("[", "]"), table);
            } else {
                pair(table);
            }
            endLine();
        }
        return top;
    }

    private String header(final String open, final String close) throws ClusterFileException {
        place += open.length();
        skipSpaces();
        final String key = key();
        skipSpaces();
        expect(close);
        return key;
    }

    private void append(final Map<String, Object> top, final String key, final Map<String, Object> table) throws ClusterFileException {
        final Object list = top.computeIfAbsent(key, any -> new ArrayList<Map<String, Object>>());
        if (!(list instanceof List<?>)) {
            throw fault(key + " is no list of tables");
        }
        @SuppressWarnings("unchecked")
        final List<Map<String, Object>> tables = (List<Map<String, Object>>) list;
        tables.add(table);
    }

    private void put(final Map<String, Object> table, final String key, final Object value) throws ClusterFileException {
        if (table.putIfAbsent(key, value) != null) {
            throw fault("duplicate key " + key);
        }
    }

    private void pair(final Map<String, Object> table) throws ClusterFileException {
        final String key = key();
        skipSpaces();
        expect("=");
        skipSpaces();
        put(table, key, value());
    }

    private Object value() throws ClusterFileException {
        final char first = peek();
        if (first == '"' || first == '\'') {
            return string();
        }
        if (first == '{') {
            return inlineTable();
        }
        final String word = word("[A-Za-z0-9_+-]");
        if (word.equals("true") || word.equals("false")) {
            return Boolean.valueOf(word);
        }
        if (!word.matches("[+-]?(0|[1-9](_?[0-9])*)") || word.length() > 18) {
            throw fault("a value that can't be read");
        }
        return Long.valueOf(word.replace("_", ""));
    }

    private Map<String, Object> inlineTable() throws ClusterFileException {
        final Map<String, Object> table = new LinkedHashMap<>();
        expect("{");
        skipSpaces();
        while (peek() != '}') {
            if (!table.isEmpty()) {
                expect(",");
                skipSpaces();
            }
            pair(table);
            skipSpaces();
        }
        expect("}");
        return table;
    }

    private String key() throws ClusterFileException {
        final char first = peek();
        return first == '"' || first == '\'' ? string() : word("[A-Za-z0-9_-]");
    }

    private String word(final String kind) throws ClusterFileException {
        final int begin = place;
        while (place < text.length() && text.substring(place, place + 1).matches(kind)) {
            place++;
        }
        if (place == begin) {
            throw fault("a key or a value is missing");
        }
        return text.substring(begin, place);
    }

    private String string() throws ClusterFileException {
        final char quote = peek();
        final StringBuilder letters = new StringBuilder();
        for (place++; peek() != quote; place++) {
            if (peek() == '\n') {
                throw fault("a string isn't closed");
            }
            if (quote == '"' && peek() == '\\') {
                place++;
                letters.append(escaped(peek()));
            } else {
                letters.append(peek());
            }
        }
        place++;
        return letters.toString();
    }

    private char escaped(final char letter) throws ClusterFileException {
        return switch (letter) {
            case '"', '\\' -> letter;
            case 'n' -> '\n';
            case 't' -> '\t';
            default -> throw fault("an escape that can't be read");
        };
    }

    private char peek() {
        return place < text.length() ? text.charAt(place) : '\n';
    }

    private void expect(final String word) throws ClusterFileException {
        if (!text.startsWith(word, place)) {
            throw fault("\"" + word + "\" is missing");
        }
        place += word.length();
    }

    private void skipSpaces() {
        while (peek() == ' ' || peek() == '\t') {
            place++;
        }
    }

    /** Goes to the next line that says something, if there is one. */
    private boolean skipToLine() {
        while (place < text.length()) {
            skipSpaces();
            skipComment();
            if (place < text.length() && text.charAt(place) != '\n') {
                return true;
            }
            place++;
        }
        return false;
    }

    private void skipComment() {
        if (peek() == '#') {
            while (peek() != '\n') {
                place++;
            }
        }
    }

    private void endLine() throws ClusterFileException {
        skipSpaces();
        skipComment();
        if (peek() != '\n') {
            throw fault("more on a line than a pair");
        }
    }

    private ClusterFileException fault(final String what) {
        final long line = 1 + text.substring(0, Math.min(place, text.length())).chars().filter(letter -> letter == '\n').count();
        return new ClusterFileException("line " + line + ": " + what);
    }
}
