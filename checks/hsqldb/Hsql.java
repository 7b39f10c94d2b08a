import java.io.IOException;
import java.nio.charset.StandardCharsets;
import java.nio.file.Files;
import java.nio.file.Path;
import java.util.ArrayList;
import java.util.List;
import java.util.Map;
import java.util.TreeMap;
import java.util.regex.Matcher;
import java.util.regex.Pattern;

/** Runs a script through the program, and reads its transcript. */
final class Hsql {
    private static final Pattern LINE = Pattern.compile("(\\d+) \\w+: (row|ok|refused|waits for|first committed) ?(.*)");
    private static final Pattern GENERATED = Pattern.compile(" \\w+_(PRIMARY|NULL|UNIQUE|CHECK|FOREIGN)_\\d+$");
    /** Of these the reference has codes of its own. Every other refusal is one of the statement itself. */
    private static final Pattern TOLD = Pattern.compile(
            "division by zero|range|too long value|bad date|more than one row|read only|open transaction|(null|check|unique|parent|child) .*");

    private final Script script;
    private final Answers answers = new Answers();
    private final Map<Integer, List<String>> rows = new TreeMap<>();
    private String cause = "";

    private Hsql(Script script) {
        this.script = script;
    }

    /** Runs the program on a new database in this folder, and takes its files away. */
    static Answers run(String program, Path folder, Script script) throws IOException, InterruptedException {
        Path input = folder.resolve("input");
        Path output = folder.resolve("output");
        StringBuilder text = new StringBuilder();
        for (Script.Entry entry : script.entries()) {
            text.append(entry.session).append(": ").append(entry.text).append(";\n");
        }
        Files.writeString(input, text);
        ProcessBuilder builder = new ProcessBuilder(program, "db").directory(folder.toFile());
        int status = builder.redirectInput(input.toFile()).redirectOutput(output.toFile()).redirectError(ProcessBuilder.Redirect.INHERIT).start().waitFor();
        if (status != 0) {
            throw new IOException("the program ended with " + status + " on '" + script.title() + "'");
        }
        List<String> lines = Files.readAllLines(output, StandardCharsets.UTF_8);
        for (String ending : List.of("log", "script", "script.new", "data", "backup")) {
            Files.deleteIfExists(folder.resolve("db." + ending));
        }
        return new Hsql(script).read(lines);
    }

    private Answers read(List<String> lines) {
        for (String line : lines) {
            Matcher matcher = LINE.matcher(line);
            if (matcher.matches()) {
                take(script.entries().get(Integer.parseInt(matcher.group(1)) - 1), matcher.group(2), matcher.group(3));
            } else if (line.startsWith("end ")) {
                cause = "the end of " + line.substring(4, line.indexOf(':'));
            }
        }
        return answers;
    }

    private void take(Script.Entry entry, String word, String more) {
        switch (word) {
            case "row" -> rows.computeIfAbsent(entry.number, at -> new ArrayList<>()).add(more);
            case "first committed" -> cause = "entry " + entry.number;
            case "waits for" -> {
                answers.waits(entry.number, more);
                cause = "entry " + entry.number;
            }
            default -> {
                if (!answers.waited(entry.number)) {
                    cause = "entry " + entry.number;
                }
                answers.put(entry.number, word.equals("ok") ? success(entry, more) : refusal(more), cause);
            }
        }
    }

    private String success(Script.Entry entry, String more) {
        String count = more.replaceFirst(" ?committed \\d+$", "");
        boolean isQuery = !entry.firstWord().matches("INSERT|UPDATE|DELETE");
        if (isQuery && !count.isEmpty()) {
            return Answers.ofRows(rows.getOrDefault(entry.number, List.of()), entry.isOrdered());
        }
        return count.isEmpty() ? "ok" : count;
    }

    private static String refusal(String more) {
        if (more.startsWith("deadlock ")) {
            return "refused deadlock";
        }
        if (more.startsWith("no savepoint ")) {
            return "refused no savepoint";
        }
        return TOLD.matcher(more).matches() ? "refused " + GENERATED.matcher(more).replaceFirst("") : "refused";
    }
}
