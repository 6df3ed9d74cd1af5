import java.sql.Connection;
import java.sql.PreparedStatement;
import java.sql.ResultSet;
import java.sql.SQLException;
import java.util.Arrays;
import java.util.HashMap;
import java.util.Map;
import java.util.StringJoiner;
import javax.sql.XAConnection;
import javax.transaction.xa.XAException;
import javax.transaction.xa.XAResource;
import javax.transaction.xa.Xid;

/** One script of `xa_codes`, over connections, rows and XIDs of its own. */
final class XaScript implements AutoCloseable {
    private static final int ROWS = 10;
    /** How long a server may take to see that a connection was broken off. */
    private static final long LOSS_MILLISECONDS = 300;
    /** No flag at all, where a call has one unless the script says so; no flag of XA has this bit. */
    private static final int NONE = 1;

    private final Drdad drdad;
    private final int number;
    private final Map<String, Party> parties = new HashMap<>();
    private final Map<String, TestXid> xids = new HashMap<>();

    /** A connection of the script, by its number. */
    private record Party(XAConnection physical, Connection connection, XAResource resource) {}

    XaScript(Drdad drdad, int number) {
        this.drdad = drdad;
        this.number = number;
    }

    /** The script with the answers that came. */
    String play(String script) throws Exception {
        StringJoiner played = new StringJoiner(" ");
        for (String step : script.split(" ")) {
            String asked = step.substring(0, step.indexOf('='));
            played.add(asked + "=" + answer(asked));
        }
        return played.toString();
    }

    private String answer(String step) throws Exception {
        boolean isOther = step.startsWith("2.");
        String[] words = (isOther ? step.substring(2) : step).split(":");
        try {
            return done(isOther ? "2" : "1", words);
        } catch (XAException refused) {
            return Integer.toString(refused.errorCode);
        } catch (SQLException refused) {
            return words[0].equals("keep") || words[0].equals("undo") ? "refused" : Integer.toString(refused.getErrorCode());
        }
    }

    private String done(String who, String[] words) throws Exception {
        switch (words[0]) {
            case "lose" -> lose(who);
            case "kill" -> serveAgain(null);
            case "decide" -> serveAgain(words[2]);
            case "local" -> party(who).connection.setAutoCommit(false);
            case "keep", "undo" -> endLocal(party(who).connection, words[0].equals("keep"));
            case "insert" -> {
                return changed(party(who).connection, "INSERT INTO T VALUES (?, 0)", words[1]);
            }
            case "update" -> {
                return changed(party(who).connection, "UPDATE T SET V = V + 1 WHERE K = ?", words[1]);
            }
            case "read" -> {
                return read(party(who).connection, words[1]);
            }
            case "recover" -> {
                return recover(party(who).resource, words.length == 1 ? XAResource.TMSTARTRSCAN | XAResource.TMENDRSCAN : flag(words[1]));
            }
            default -> {
                return call(party(who).resource, words[0], xid(words[1]), words.length == 3 ? flag(words[2]) : XAResource.TMNOFLAGS);
            }
        }
        return "0";
    }

    private static String call(XAResource resource, String call, Xid xid, int flag) throws XAException {
        switch (call) {
            case "start" -> resource.start(xid, flag);
            case "end" -> resource.end(xid, flag == XAResource.TMNOFLAGS ? XAResource.TMSUCCESS : flag == NONE ? XAResource.TMNOFLAGS : flag);
            case "prepare" -> {
                return Integer.toString(resource.prepare(xid));
            }
            case "commit" -> resource.commit(xid, flag == XAResource.TMONEPHASE);
            case "rollback" -> resource.rollback(xid);
            case "forget" -> resource.forget(xid);
            default -> throw new IllegalArgumentException(call);
        }
        return "0";
    }

    private static int flag(String word) {
        return switch (word) {
            case "join" -> XAResource.TMJOIN;
            case "resume" -> XAResource.TMRESUME;
            case "suspend" -> XAResource.TMSUSPEND;
            case "fail" -> XAResource.TMFAIL;
            case "onephase" -> XAResource.TMONEPHASE;
            case "start" -> XAResource.TMSTARTRSCAN;
            case "end" -> XAResource.TMENDRSCAN;
            case "none" -> NONE;
            default -> throw new IllegalArgumentException(word);
        };
    }

    private TestXid xid(String name) {
        return xids.computeIfAbsent(name, made -> TestXid.of(number, made));
    }

    /** The letters of those XIDs of this script that are listed. */
    private String recover(XAResource resource, int flags) throws XAException {
        Xid[] listed = resource.recover(flags == NONE ? XAResource.TMNOFLAGS : flags);
        StringBuilder letters = new StringBuilder();
        xids.keySet().stream().sorted().filter(name -> Arrays.stream(listed).anyMatch(xid(name)::isSame)).forEach(letters::append);
        return letters.isEmpty() ? "-" : letters.toString();
    }

    private String changed(Connection connection, String text, String row) throws SQLException {
        try (PreparedStatement statement = connection.prepareStatement(text)) {
            statement.setInt(1, key(row));
            return Integer.toString(statement.executeUpdate());
        }
    }

    private String read(Connection connection, String row) throws SQLException {
        try (PreparedStatement statement = connection.prepareStatement("SELECT K FROM T WHERE K = ?")) {
            statement.setInt(1, key(row));
            try (ResultSet rows = statement.executeQuery()) {
                return rows.next() ? "1" : "0";
            }
        }
    }

    private int key(String row) {
        return number * ROWS + Integer.parseInt(row);
    }

    private static void endLocal(Connection connection, boolean isKept) throws SQLException {
        if (isKept) {
            connection.commit();
        } else {
            connection.rollback();
        }
        connection.setAutoCommit(true);
    }

    private Party party(String who) throws SQLException {
        if (!parties.containsKey(who)) {
            XAConnection physical = drdad.xa().getXAConnection();
            parties.put(who, new Party(physical, physical.getConnection(), physical.getXAResource()));
        }
        return parties.get(who);
    }

    private void lose(String who) throws Exception {
        parties.remove(who).physical.close();
        Thread.sleep(LOSS_MILLISECONDS);
    }

    /** Kills the server, decides the unit in doubt where a decision is given, and serves the store again. */
    private void serveAgain(String decision) throws Exception {
        drdad.kill();
        close();
        if (decision != null) {
            drdad.decide(decision);
        }
        drdad.serve();
    }

    @Override
    public void close() {
        for (Party party : parties.values()) {
            try {
                party.physical.close();
            } catch (SQLException gone) {
                // its server was killed
            }
        }
        parties.clear();
    }
}
