import java.io.IOException;
import java.nio.file.Files;
import java.nio.file.Path;
import java.util.ArrayList;
import java.util.List;
import java.util.regex.Matcher;
import java.util.regex.Pattern;

/** A script: entries of sessions on a new database, and the differences that are listed for them. */
record Script(String title, List<Entry> entries) {
    private static final Pattern BEGINNING = Pattern.compile("([A-Za-z]\\w*): ?(.*)", Pattern.DOTALL);

    /** What the two are known to answer differently, and the row of the document that says why. */
    record Difference(String reason, String hsql, String hsqldb) {}

    /** Entry {@code number} of its script, counted from 1. Its text has no {@code ;} at the end. */
    static final class Entry {
        final int number;
        final String session;
        final String text;
        final int line;
        private String reason;
        private String hsql;
        private String hsqldb;

        Entry(int number, String session, String text, int line) {
            this.number = number;
            this.session = session;
            this.text = text;
            this.line = line;
        }

        /** Null where no difference is listed. */
        Difference listed() {
            return reason == null ? null : new Difference(reason, hsql, hsqldb);
        }

        String firstWord() {
            return text.split("\\s+", 2)[0].toUpperCase();
        }

        /** Whether the answer's rows have an order: ORDER BY stands outside of parentheses and texts. */
        boolean isOrdered() {
            String bare = text.replaceAll("'[^']*'", "''");
            for (String last = ""; !last.equals(bare); ) {
                last = bare;
                bare = bare.replaceAll("\\([^()]*\\)", "");
            }
            return bare.toUpperCase().contains("ORDER BY");
        }
    }

    static List<Script> read(Path file) throws IOException {
        return new Reader(file).read();
    }

    /** Reads the lines of a file one by one. */
    private static final class Reader {
        private final Path file;
        private final List<Script> scripts = new ArrayList<>();
        private final StringBuilder open = new StringBuilder();
        private Entry last;
        private int line;

        Reader(Path file) {
            this.file = file;
        }

        List<Script> read() throws IOException {
            for (String text : Files.readAllLines(file)) {
                line++;
                if (open.length() > 0) {
                    goOn("\n" + text);
                } else if (text.startsWith("== ")) {
                    scripts.add(new Script(text.substring(3), new ArrayList<>()));
                    last = null;
                } else if (text.startsWith("    ")) {
                    list(text.strip());
                } else if (!text.isBlank() && !text.startsWith("#")) {
                    goOn(text);
                }
            }
            check(open.length() == 0, "an entry without its ;");
            finish();
            return scripts;
        }

        private void goOn(String text) {
            open.append(text);
            if (!text.endsWith(";")) {
                return;
            }
            Matcher matcher = BEGINNING.matcher(open.substring(0, open.length() - 1));
            check(matcher.matches() && !scripts.isEmpty(), "no entry of a script");
            finish();
            List<Entry> entries = scripts.get(scripts.size() - 1).entries;
            last = new Entry(entries.size() + 1, matcher.group(1), matcher.group(2), line);
            entries.add(last);
            open.setLength(0);
        }

        private void list(String text) {
            check(last != null, "a difference without an entry");
            String[] parts = text.split(": ", 2);
            check(parts.length == 2, "no difference");
            switch (parts[0]) {
                case "differs" -> last.reason = parts[1];
                case "hsql" -> last.hsql = parts[1];
                case "HSQLDB" -> last.hsqldb = parts[1];
                default -> check(false, "no difference");
            }
        }

        private void finish() {
            boolean isWhole = last == null || (last.reason == null) == (last.hsql == null) && (last.hsql == null) == (last.hsqldb == null);
            check(isWhole, "a difference needs the lines differs, hsql and HSQLDB");
        }

        private void check(boolean isRight, String message) {
            if (!isRight) {
                throw new IllegalArgumentException(file.getFileName() + ":" + line + ": " + message);
            }
        }
    }
}
