import java.io.IOException;
import java.nio.file.Files;
import java.nio.file.Path;
import java.sql.Connection;
import java.sql.DriverManager;
import java.sql.PreparedStatement;
import java.sql.ResultSet;
import java.sql.SQLException;
import java.sql.SQLTransactionRollbackException;
import java.sql.Statement;
import java.util.ArrayList;
import java.util.List;
import java.util.Locale;
import java.util.concurrent.ExecutorService;
import java.util.concurrent.Executors;
import java.util.concurrent.Future;

/**
 * Does the work of bench/models.sh on HSQLDB, through JDBC: four sessions, each a connection with a thread of its own, change
 * 100 rows in short transactions.
 *
 * <pre>
 * java Models MODEL texts|prepared ENTRIES FOLDER..
 * </pre>
 *
 * MODEL is LOCKS, MVLOCKS or MVCC. ENTRIES is a file of lines {@code SESSION ROW} and {@code SESSION COMMIT}. Each session does
 * its own in their order, and goes on with the next one where HSQLDB rolls its transaction back. A database is made in each
 * folder in turn. For each a line {@code SECONDS ROLLED_BACK} is printed, once the sum of the rows is that of what was committed.
 */
public final class Models {
    private static final int SESSIONS = 4;
    private static final int ROWS = 100;
    private static final int COMMIT = -1;

    /** What a session has done: how many of its changes are committed, and how often it was rolled back. */
    private record Done(long committed, long rolledBack) {}

    private final String address;
    private final boolean isPrepared;

    private Models(String folder, boolean isPrepared) {
        address = "jdbc:hsqldb:file:" + folder + "/db";
        this.isPrepared = isPrepared;
    }

    public static void main(String[] words) throws Exception {
        List<List<Integer>> entries = read(Path.of(words[2]));
        for (int at = 3; at < words.length; at++) {
            new Models(words[at], words[1].equals("prepared")).round(words[0], entries);
        }
    }

    /** The entries of each session: the numbers of rows, and COMMIT. */
    private static List<List<Integer>> read(Path file) throws IOException {
        List<List<Integer>> entries = new ArrayList<>();
        for (int session = 0; session < SESSIONS; session++) {
            entries.add(new ArrayList<>());
        }
        for (String line : Files.readAllLines(file)) {
            String[] parts = line.split(" ");
            entries.get(Integer.parseInt(parts[0])).add(parts[1].equals("COMMIT") ? COMMIT : Integer.parseInt(parts[1]));
        }
        return entries;
    }

    private void round(String model, List<List<Integer>> entries) throws Exception {
        try (Connection connection = connect(); Statement statement = connection.createStatement()) {
            statement.execute("SET FILES WRITE DELAY FALSE");
            statement.execute("SET DATABASE TRANSACTION CONTROL " + model);
            statement.execute("CREATE TABLE W (ID INTEGER PRIMARY KEY, V INTEGER)");
            for (int row = 0; row < ROWS; row++) {
                statement.execute("INSERT INTO W VALUES (" + row + ",0)");
            }
            long start = System.nanoTime();
            Done done = run(entries);
            double seconds = (System.nanoTime() - start) / 1e9;
            check(statement, done.committed);
            statement.execute("SHUTDOWN");
            System.out.printf(Locale.ROOT, "%.6f %d%n", seconds, done.rolledBack);
        }
    }

    /** All sessions at once. */
    private Done run(List<List<Integer>> entries) throws Exception {
        ExecutorService threads = Executors.newFixedThreadPool(SESSIONS);
        List<Future<Done>> running = new ArrayList<>();
        for (List<Integer> own : entries) {
            running.add(threads.submit(() -> run(own, isPrepared)));
        }
        long committed = 0;
        long rolledBack = 0;
        for (Future<Done> each : running) {
            committed += each.get().committed;
            rolledBack += each.get().rolledBack;
        }
        threads.shutdown();
        return new Done(committed, rolledBack);
    }

    /** One session. What it has open at its end is rolled back. */
    private Done run(List<Integer> entries, boolean prepared) throws SQLException {
        long committed = 0;
        long rolledBack = 0;
        long open = 0;
        try (Connection connection = connect();
                Statement statement = connection.createStatement();
                PreparedStatement change = connection.prepareStatement("UPDATE W SET V = V + 1 WHERE ID = ?")) {
            connection.setAutoCommit(false);
            for (int row : entries) {
                try {
                    if (row == COMMIT) {
                        connection.commit();
                        committed += open;
                        open = 0;
                    } else {
                        open += prepared ? change(change, row) : statement.executeUpdate("UPDATE W SET V = V + 1 WHERE ID = " + row);
                    }
                } catch (SQLTransactionRollbackException refused) {
                    rolledBack++;
                    open = 0;
                }
            }
            connection.rollback();
        }
        return new Done(committed, rolledBack);
    }

    private static int change(PreparedStatement change, int row) throws SQLException {
        change.setInt(1, row);
        return change.executeUpdate();
    }

    private static void check(Statement statement, long committed) throws SQLException {
        try (ResultSet result = statement.executeQuery("SELECT SUM(V) FROM W")) {
            result.next();
            if (result.getLong(1) != committed) {
                throw new IllegalStateException("the sum is " + result.getLong(1) + ", and should be " + committed);
            }
        }
    }

    private Connection connect() throws SQLException {
        return DriverManager.getConnection(address, "SA", "");
    }
}
