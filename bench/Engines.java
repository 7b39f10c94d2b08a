import java.sql.Connection;
import java.sql.DatabaseMetaData;
import java.sql.DriverManager;
import java.sql.PreparedStatement;
import java.sql.ResultSet;
import java.sql.SQLException;
import java.sql.Statement;
import java.util.Locale;

/**
 * Does the work of bench/engines.sh on an engine that runs inside the JVM, through JDBC alone.
 *
 * <pre>
 * java Engines work ENGINE texts|prepared {FOLDER ROWS}..
 * java Engines fill ENGINE FOLDER ROWS
 * java Engines open ENGINE FOLDER
 * java Engines version ENGINE FOLDER
 * </pre>
 *
 * {@code work} makes a database in each folder in turn, puts the rows, reads them all, and closes it; it prints a line
 * {@code SECONDS_OF_INSERTS SECONDS_OF_SELECT ROWS SUM_OF_N SUM_OF_M} for each. {@code fill} puts the rows and halts without
 * a close. {@code open} opens what was left so, counts the rows, prints {@code SECONDS ROWS}, and halts too.
 * {@code version} prints the engine's name and version.
 */
public final class Engines {
    /** What differs between the engines: the database's address, what to set so that a commit is written at once, and the close. */
    private enum Engine {
        HSQLDB("jdbc:hsqldb:file:%s/db", "", "SET FILES WRITE DELAY FALSE"),
        H2("jdbc:h2:file:%s/db", "", "SET WRITE_DELAY 0"),
        H2_DELAYED("jdbc:h2:file:%s/db", "", ""),
        DERBY("jdbc:derby:%s/db", ";create=true", "");

        private final String address;
        private final String whereMade;
        private final String setting;

        Engine(String address, String whereMade, String setting) {
            this.address = address;
            this.whereMade = whereMade;
            this.setting = setting;
        }

        /** Makes a database with the table. The parameter is a folder that needn't be there yet. */
        Connection create(String folder) throws SQLException {
            Connection connection = connect(folder, whereMade);
            if (!setting.isEmpty()) {
                execute(connection, setting);
            }
            execute(connection, "CREATE TABLE T (N BIGINT, M BIGINT)");
            return connection;
        }

        Connection open(String folder) throws SQLException {
            return connect(folder, "");
        }

        void close(Connection connection, String folder) throws SQLException {
            if (this != DERBY) {
                execute(connection, "SHUTDOWN");
                return;
            }
            connection.close();
            try {
                connect(folder, ";shutdown=true");
            } catch (SQLException told) {
                // Derby tells by this that the database was closed.
                if (!"08006".equals(told.getSQLState())) {
                    throw told;
                }
            }
        }

        private Connection connect(String folder, String more) throws SQLException {
            return DriverManager.getConnection(String.format(address, folder) + more, "SA", "");
        }
    }

    /** The rows that were read: how many, and the sums of their columns. */
    private record Answer(long rows, long sumOfN, long sumOfM) {}

    public static void main(String[] words) throws SQLException {
        Engine engine = Engine.valueOf(words[1]);
        switch (words[0]) {
            case "work" -> work(engine, words);
            case "fill" -> fill(engine, words[2], Integer.parseInt(words[3]));
            case "open" -> open(engine, words[2]);
            case "version" -> version(engine, words[2]);
            default -> throw new IllegalArgumentException(words[0]);
        }
    }

    private static void work(Engine engine, String[] words) throws SQLException {
        boolean prepared = words[2].equals("prepared");
        for (int at = 3; at + 1 < words.length; at += 2) {
            round(engine, prepared, words[at], Integer.parseInt(words[at + 1]));
        }
    }

    private static void round(Engine engine, boolean prepared, String folder, int rows) throws SQLException {
        Connection connection = engine.create(folder);
        long start = System.nanoTime();
        insert(connection, prepared, rows);
        double inserting = secondsSince(start);
        start = System.nanoTime();
        Answer answer = select(connection);
        double selecting = secondsSince(start);
        engine.close(connection, folder);
        System.out.printf(Locale.ROOT, "%.6f %.6f %d %d %d%n", inserting, selecting, answer.rows, answer.sumOfN, answer.sumOfM);
    }

    private static void fill(Engine engine, String folder, int rows) throws SQLException {
        insert(engine.create(folder), true, rows);
        Runtime.getRuntime().halt(0);
    }

    private static void open(Engine engine, String folder) throws SQLException {
        long start = System.nanoTime();
        Connection connection = engine.open(folder);
        long rows = count(connection);
        System.out.printf(Locale.ROOT, "%.6f %d%n", secondsSince(start), rows);
        System.out.flush();
        Runtime.getRuntime().halt(0);
    }

    private static void version(Engine engine, String folder) throws SQLException {
        Connection connection = engine.create(folder);
        DatabaseMetaData told = connection.getMetaData();
        System.out.println(told.getDatabaseProductName() + " " + told.getDatabaseProductVersion());
        engine.close(connection, folder);
    }

    /** Puts the rows one by one, each a commit of its own, since a connection commits by itself if not told otherwise. */
    private static void insert(Connection connection, boolean prepared, int rows) throws SQLException {
        if (prepared) {
            insertPrepared(connection, rows);
        } else {
            insertTexts(connection, rows);
        }
    }

    private static void insertTexts(Connection connection, int rows) throws SQLException {
        try (Statement statement = connection.createStatement()) {
            for (int at = 1; at <= rows; at++) {
                statement.executeUpdate("INSERT INTO T VALUES (" + key(at) + "," + -at + ")");
            }
        }
    }

    private static void insertPrepared(Connection connection, int rows) throws SQLException {
        try (PreparedStatement statement = connection.prepareStatement("INSERT INTO T VALUES (?,?)")) {
            for (int at = 1; at <= rows; at++) {
                statement.setLong(1, key(at));
                statement.setLong(2, -at);
                statement.executeUpdate();
            }
        }
    }

    /** Different keys in random order, the same ones that the script makes. */
    private static long key(long at) {
        return at * 48271 % 2147483647;
    }

    private static Answer select(Connection connection) throws SQLException {
        try (Statement statement = connection.createStatement();
                ResultSet result = statement.executeQuery("SELECT * FROM T ORDER BY N, M")) {
            long rows = 0;
            long sumOfN = 0;
            long sumOfM = 0;
            while (result.next()) {
                rows++;
                sumOfN += result.getLong(1);
                sumOfM += result.getLong(2);
            }
            return new Answer(rows, sumOfN, sumOfM);
        }
    }

    private static long count(Connection connection) throws SQLException {
        try (Statement statement = connection.createStatement();
                ResultSet result = statement.executeQuery("SELECT COUNT(*) FROM T")) {
            result.next();
            return result.getLong(1);
        }
    }

    private static void execute(Connection connection, String text) throws SQLException {
        try (Statement statement = connection.createStatement()) {
            statement.execute(text);
        }
    }

    private static double secondsSince(long start) {
        return (System.nanoTime() - start) / 1e9;
    }
}
