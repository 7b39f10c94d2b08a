import java.sql.Connection;
import java.sql.DriverManager;
import java.sql.ResultSet;
import java.sql.SQLException;
import java.sql.Statement;
import java.sql.Types;
import java.util.ArrayDeque;
import java.util.ArrayList;
import java.util.Deque;
import java.util.HashMap;
import java.util.HashSet;
import java.util.LinkedHashMap;
import java.util.List;
import java.util.Map;
import java.util.Set;
import java.util.concurrent.ExecutorService;
import java.util.concurrent.Executors;
import java.util.concurrent.Future;
import java.util.regex.Matcher;
import java.util.regex.Pattern;

/**
 * Runs a script through HSQLDB: a new database in memory, under LOCKS at first, and a connection and a thread for each session.
 *
 * <p>Entries come in the program's order. After each of them it is waited until every session has its answer or waits for
 * another one, which HSQLDB's table of sessions tells. Entries of a session that waits are queued. At the end the sessions are
 * rolled back one by one, as the program does it.
 */
final class Hsqldb implements AutoCloseable {
    private static final long PATIENCE_SECONDS = 30;
    private static final Pattern CONSTRAINT = Pattern.compile("; (\\S+) table: ");
    private static final String WAITS = "SELECT SESSION_ID, WAITING_FOR_THIS, LATCH_COUNT FROM INFORMATION_SCHEMA.SYSTEM_SESSIONS";
    private static int databases;

    private final Script script;
    private final Answers answers = new Answers();
    private final Map<String, Session> sessions = new LinkedHashMap<>();
    private final Connection watcher;
    private final String address;
    private String cause = "";

    /** A session, what it is at, and what it has to do then. */
    private static final class Session {
        final String name;
        final Connection connection;
        final long id;
        final ExecutorService thread = Executors.newSingleThreadExecutor(Session::daemon);
        final Deque<Script.Entry> queue = new ArrayDeque<>();
        Script.Entry entry;
        Future<String> answer;
        boolean isClosed;

        Session(String name, Connection connection) throws SQLException {
            this.name = name;
            this.connection = connection;
            try (Statement statement = connection.createStatement(); ResultSet result = statement.executeQuery("CALL SESSION_ID()")) {
                result.next();
                id = result.getLong(1);
            }
        }

        private static Thread daemon(Runnable task) {
            Thread thread = new Thread(task);
            thread.setDaemon(true);
            return thread;
        }

        boolean isBusy() {
            return entry != null;
        }
    }

    private Hsqldb(Script script) throws SQLException {
        this.script = script;
        address = "jdbc:hsqldb:mem:script" + databases++;
        watcher = connect();
        execute(watcher, "SET DATABASE TRANSACTION CONTROL LOCKS");
    }

    static Answers run(Script script) throws Exception {
        try (Hsqldb engine = new Hsqldb(script)) {
            engine.takeTurns();
            return engine.answers;
        }
    }

    static String version() throws SQLException {
        try (Connection connection = DriverManager.getConnection("jdbc:hsqldb:mem:version", "SA", "")) {
            return connection.getMetaData().getDatabaseProductVersion();
        }
    }

    @Override
    public void close() throws SQLException {
        for (Session session : sessions.values()) {
            session.thread.shutdownNow();
        }
        execute(watcher, "SHUTDOWN IMMEDIATELY");
    }

    private void takeTurns() throws Exception {
        for (Script.Entry entry : script.entries()) {
            Session session = session(entry.session);
            if (session.isBusy()) {
                session.queue.add(entry);
            } else {
                attempt(session, entry);
            }
            takeQueued();
        }
        for (Session session = firstToClose(); session != null; session = firstToClose()) {
            session.isClosed = true;
            cause = "the end of " + session.name;
            session.connection.rollback();
            settle();
            takeQueued();
        }
    }

    private Session session(String name) throws SQLException {
        Session session = sessions.get(name);
        if (session == null) {
            session = new Session(name, connect());
            sessions.put(name, session);
        }
        return session;
    }

    private Session firstToClose() {
        return sessions.values().stream().filter(session -> !session.isClosed && !session.isBusy()).findFirst().orElse(null);
    }

    private void attempt(Session session, Script.Entry entry) throws Exception {
        cause = "entry " + entry.number;
        session.entry = entry;
        session.answer = session.thread.submit(() -> answer(session.connection, entry));
        settle();
    }

    private void takeQueued() throws Exception {
        while (true) {
            Session next = null;
            for (Session session : sessions.values()) {
                boolean isReady = !session.isBusy() && !session.queue.isEmpty();
                if (isReady && (next == null || session.queue.peek().number < next.queue.peek().number)) {
                    next = session;
                }
            }
            if (next == null) {
                return;
            }
            attempt(next, next.queue.poll());
        }
    }

    /** Waits until each session has answered or waits for another one. */
    private void settle() throws Exception {
        long end = System.nanoTime() + PATIENCE_SECONDS * 1_000_000_000;
        String before = "";
        while (true) {
            collect();
            List<Session> busy = sessions.values().stream().filter(Session::isBusy).toList();
            if (busy.isEmpty()) {
                return;
            }
            Map<Session, String> waits = waits();
            boolean isSettled = busy.stream().allMatch(session -> waits.containsKey(session) && !session.answer.isDone());
            String now = isSettled ? waits.toString() : "";
            if (isSettled && now.equals(before)) {
                busy.forEach(session -> answers.waits(session.entry.number, waits.get(session)));
                return;
            }
            before = now;
            if (System.nanoTime() > end) {
                throw new IllegalStateException("HSQLDB neither answers nor waits in '" + script.title() + "' behind " + cause);
            }
            Thread.sleep(isSettled ? 2 : 1);
        }
    }

    private void collect() throws Exception {
        for (Session session : sessions.values()) {
            if (session.isBusy() && session.answer.isDone()) {
                answers.put(session.entry.number, session.answer.get(), cause);
                session.entry = null;
            }
        }
    }

    /** The names of the sessions for which each one waits, in the order of sessions. Those that don't wait aren't there. */
    private Map<Session, String> waits() throws SQLException {
        Map<Session, String> waits = new HashMap<>();
        Map<Long, List<String>> behind = new HashMap<>();
        Set<Long> waiting = new HashSet<>();
        try (Statement statement = watcher.createStatement(); ResultSet result = statement.executeQuery(WAITS)) {
            while (result.next()) {
                behind.put(result.getLong(1), List.of(result.getString(2).split("\\D+")));
                if (result.getLong(3) > 0) {
                    waiting.add(result.getLong(1));
                }
            }
        }
        for (Session session : sessions.values()) {
            String number = String.valueOf(session.id);
            List<String> names = sessions.values().stream().filter(other -> behind.get(other.id).contains(number)).map(other -> other.name).toList();
            if (waiting.contains(session.id) && !names.isEmpty()) {
                waits.put(session, String.join(", ", names));
            }
        }
        return waits;
    }

    private static String answer(Connection connection, Script.Entry entry) {
        try (Statement statement = connection.createStatement()) {
            if (!statement.execute(entry.text)) {
                return entry.firstWord().matches("INSERT|UPDATE|DELETE|MERGE") ? Answers.ofCount(statement.getLargeUpdateCount()) : "ok";
            }
            List<String> rows = new ArrayList<>();
            try (ResultSet result = statement.getResultSet()) {
                while (result.next()) {
                    rows.add(row(result));
                }
            }
            return Answers.ofRows(rows, entry.isOrdered());
        } catch (SQLException fault) {
            return refusal(fault);
        }
    }

    private static String row(ResultSet result) throws SQLException {
        List<String> values = new ArrayList<>();
        for (int at = 1; at <= result.getMetaData().getColumnCount(); at++) {
            values.add(result.getObject(at) == null ? "NULL" : value(result, at));
        }
        return String.join(",", values);
    }

    /** The value as the program writes it. */
    private static String value(ResultSet result, int at) throws SQLException {
        String text = result.getString(at);
        return switch (result.getMetaData().getColumnType(at)) {
            case Types.SMALLINT, Types.INTEGER, Types.BIGINT -> text;
            case Types.DECIMAL, Types.NUMERIC -> result.getBigDecimal(at).toPlainString();
            case Types.BOOLEAN -> text.toUpperCase();
            case Types.VARCHAR, Types.CHAR -> "'" + text.replace("'", "''") + "'";
            case Types.DATE -> "DATE '" + text + "'";
            case Types.TIMESTAMP -> "TIMESTAMP '" + withSixDigits(text) + "'";
            default -> result.getMetaData().getColumnTypeName(at) + " '" + text + "'";
        };
    }

    private static String withSixDigits(String timestamp) {
        int point = timestamp.indexOf('.');
        String digits = point < 0 ? "" : timestamp.substring(point + 1);
        return (point < 0 ? timestamp : timestamp.substring(0, point)) + "." + (digits + "000000").substring(0, Math.max(6, digits.length()));
    }

    /** A refusal as the program tells it, as far as its code says so. Names that HSQLDB gave itself are left out. */
    private static String refusal(SQLException fault) {
        Matcher matcher = CONSTRAINT.matcher(fault.getMessage());
        String name = matcher.find() && !matcher.group(1).startsWith("SYS_") ? " " + matcher.group(1) : "";
        String kind = switch (fault.getSQLState()) {
            case "22012" -> " division by zero";
            case "22003", "22008" -> " range";
            case "22001" -> " too long value";
            case "22007" -> " bad date";
            case "21000" -> " more than one row";
            case "23502" -> " null" + name;
            case "23513" -> " check" + name;
            case "23505" -> " unique" + name;
            case "23503" -> " parent" + name;
            case "23504", "23001" -> " child" + name;
            case "25001" -> " open transaction";
            case "25006" -> " read only";
            case "3B001" -> " no savepoint";
            case "40001" -> " deadlock";
            default -> "";
        };
        return "refused" + kind;
    }

    private Connection connect() throws SQLException {
        return DriverManager.getConnection(address, "SA", "");
    }

    private static void execute(Connection connection, String text) throws SQLException {
        try (Statement statement = connection.createStatement()) {
            statement.execute(text);
        }
    }
}
