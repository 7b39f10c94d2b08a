import java.nio.file.Files;
import java.nio.file.Path;
import java.sql.SQLException;
import java.util.ArrayList;
import java.util.List;
import java.util.TreeSet;

/**
 * Compares the program with HSQLDB over the scripts of files.
 *
 * <pre>
 * java Compare PROGRAM FOLDER REASONS SCRIPTS..
 * </pre>
 *
 * FOLDER is for files of the program. REASONS is a file of lines, each the name of a reason for differences. Each entry whose
 * answers aren't as its file says is printed, as it would be listed. The last line tells how many entries, scripts and
 * differences there are, and HSQLDB's version.
 */
public final class Compare {
    private final List<String> faults = new ArrayList<>();
    private final TreeSet<String> reasons = new TreeSet<>();
    private int scripts;
    private int entries;
    private int differences;

    public static void main(String[] words) throws Exception {
        Compare compare = new Compare();
        for (int at = 3; at < words.length; at++) {
            Path file = Path.of(words[at]);
            for (Script script : Script.read(file)) {
                compare.compare(file.getFileName().toString(), script, words[0], Path.of(words[1]));
            }
        }
        compare.compareReasons(new TreeSet<>(Files.readAllLines(Path.of(words[2]))));
        compare.faults.forEach(System.out::println);
        System.out.printf("%d %d %d %s%n", compare.entries, compare.scripts, compare.differences, Hsqldb.version());
        System.exit(compare.faults.isEmpty() ? 0 : 1);
    }

    private void compare(String file, Script script, String program, Path folder) throws Exception {
        scripts++;
        Answers hsql = Hsql.run(program, folder, script);
        Answers hsqldb;
        try {
            hsqldb = Hsqldb.run(script);
        } catch (SQLException | IllegalStateException stop) {
            faults.add(file + ", '" + script.title() + "': HSQLDB could not run it: " + stop.getMessage());
            return;
        }
        for (Script.Entry entry : script.entries()) {
            String wrong = compare(entry, hsql.get(entry.number), hsqldb.get(entry.number));
            if (wrong != null) {
                faults.add(file + ":" + entry.line + ": " + entry.session + ": " + entry.text + "; " + wrong);
            }
        }
    }

    /** What is wrong of an entry with these answers. Null where they are the same, or differ as they are listed. */
    private String compare(Script.Entry entry, String hsql, String hsqldb) {
        Script.Difference listed = entry.listed();
        entries++;
        if (listed != null) {
            differences++;
            reasons.add(listed.reason());
        }
        if (agree(hsql, hsqldb)) {
            return listed == null ? null : "is listed as a difference, and is none: " + hsql;
        }
        String both = "\n    hsql: " + hsql + "\n    HSQLDB: " + hsqldb;
        if (listed == null) {
            return "is a difference that isn't listed" + both;
        }
        return hsql.equals(listed.hsql()) && hsqldb.equals(listed.hsqldb()) ? null : "differs otherwise than is listed" + both;
    }

    /** The same answers, or refusals of which at least one is of the statement itself. These have no kinds to compare. */
    private static boolean agree(String first, String second) {
        boolean isPlain = first.endsWith("refused") || second.endsWith("refused");
        return first.equals(second) || isPlain && first.replaceFirst("refused.*", "refused").equals(second.replaceFirst("refused.*", "refused"));
    }

    /** The reasons that are listed are those that the document gives. */
    private void compareReasons(TreeSet<String> given) {
        for (String reason : reasons) {
            if (!given.contains(reason)) {
                faults.add("the document doesn't give the reason '" + reason + "'");
            }
        }
        for (String reason : given) {
            if (!reasons.contains(reason)) {
                faults.add("no listed difference has the reason '" + reason + "'");
            }
        }
    }
}
