import java.util.ArrayList;
import java.util.List;
import java.util.TreeMap;

/** The answer to each entry of a script, in words that don't tell which engine gave them. */
final class Answers {
    private final TreeMap<Integer, String> byEntry = new TreeMap<>();
    private final TreeMap<Integer, String> waits = new TreeMap<>();

    /** The entry waits for these sessions. Those for which it began to wait count. */
    void waits(int entry, String sessions) {
        waits.putIfAbsent(entry, sessions);
    }

    boolean waited(int entry) {
        return waits.containsKey(entry);
    }

    /** The entry has its answer, during what {@code cause} brought about. This tells something only of one that waited. */
    void put(int entry, String answer, String cause) {
        String before = waits.containsKey(entry) ? "waits for " + waits.get(entry) + " until " + cause + ": " : "";
        byEntry.put(entry, before + answer);
    }

    String get(int entry) {
        return byEntry.getOrDefault(entry, "no answer");
    }

    /** The answer of a query. The order of its rows counts where it has one. */
    static String ofRows(List<String> rows, boolean isOrdered) {
        if (rows.isEmpty()) {
            return "no rows";
        }
        List<String> sorted = new ArrayList<>(rows);
        if (!isOrdered) {
            sorted.sort(null);
        }
        return "(" + String.join(") (", sorted) + ")";
    }

    static String ofCount(long count) {
        return count == 1 ? "1 row" : count + " rows";
    }
}
