import java.sql.Connection;
import java.sql.PreparedStatement;
import java.sql.ResultSet;
import java.sql.SQLException;
import java.util.Arrays;
import javax.sql.XAConnection;
import javax.transaction.xa.XAException;
import javax.transaction.xa.XAResource;
import javax.transaction.xa.Xid;

/**
 * A store that gets full. The branch that finds no room, at its prepare or its commit in one phase, is rolled back, and the manager is told so;
 * all those before it are there, the one in doubt too, whose decision always has room.
 */
public class FullStore {
    private static final int STORE_BYTES = 2 << 20;
    private static final int ROWS_OF_A_BRANCH = 20;
    private static final int MOST_BRANCHES = 200;
    private static final String VALUE = "v".repeat(2000);

    private final Findings findings = new Findings();
    private final Connection connection;
    private final XAResource resource;
    private int branches;
    private int kept;

    private FullStore(Drdad drdad) throws SQLException {
        XAConnection physical = drdad.xa().getXAConnection();
        connection = physical.getConnection();
        resource = physical.getXAResource();
        connection.createStatement().executeUpdate("CREATE TABLE T (K INTEGER NOT NULL, V VARCHAR(2000), PRIMARY KEY (K))");
    }

    public static void main(String[] words) throws Exception {
        try (Drdad drdad = new Drdad(Drdad.folder(), STORE_BYTES)) {
            FullStore full = new FullStore(drdad);
            full.play();
            full.findings.check("rows", full.kept * ROWS_OF_A_BRANCH, full.rows());
            full.findings.end("a store that gets full, by " + full.branches + " branches");
        }
    }

    private void play() throws Exception {
        Xid inDoubt = worked();
        findings.check("the first one is prepared", XAResource.XA_OK, resource.prepare(inDoubt));
        findings.check("a commit in one phase without room", XAException.XA_RBROLLBACK, endOf(this::commitInOnePhase));
        findings.check("a prepare without room", XAException.XA_RBROLLBACK, endOf(resource::prepare));
        resource.commit(inDoubt, false);
        kept++;
    }

    private interface End {
        void of(Xid xid) throws XAException;
    }

    private void commitInOnePhase(Xid xid) throws XAException {
        resource.commit(xid, true);
        kept++;
    }

    /** The code of the first branch that is refused, which the server then does not know any more. */
    private int endOf(End end) throws Exception {
        for (int tries = 0; tries < MOST_BRANCHES; tries++) {
            Xid xid = worked();
            try {
                end.of(xid);
            } catch (XAException refused) {
                findings.checkStep("a refused branch is gone", "-4", () -> unknown(xid));
                return refused.errorCode;
            }
        }
        return XAResource.XA_OK;
    }

    private String unknown(Xid xid) {
        try {
            resource.rollback(xid);
            return "known";
        } catch (XAException refused) {
            return Integer.toString(refused.errorCode);
        }
    }

    /** A branch that has put in its rows and ended its work. */
    private Xid worked() throws SQLException, XAException {
        Xid xid = TestXid.of(++branches, "A");
        resource.start(xid, XAResource.TMNOFLAGS);
        try (PreparedStatement insert = connection.prepareStatement("INSERT INTO T VALUES (?, ?)")) {
            for (int row = 0; row < ROWS_OF_A_BRANCH; row++) {
                insert.setInt(1, branches * ROWS_OF_A_BRANCH + row);
                insert.setString(2, VALUE);
                insert.addBatch();
            }
            findings.check("rows of a branch", ROWS_OF_A_BRANCH, Arrays.stream(insert.executeBatch()).sum());
        }
        resource.end(xid, XAResource.TMSUCCESS);
        return xid;
    }

    private int rows() throws SQLException {
        try (PreparedStatement select = connection.prepareStatement("SELECT K FROM T"); ResultSet rows = select.executeQuery()) {
            int count = 0;
            while (rows.next()) {
                count++;
            }
            return count;
        }
    }
}
