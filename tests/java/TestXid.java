import java.nio.charset.StandardCharsets;
import java.util.Arrays;
import javax.transaction.xa.Xid;

/** A transaction branch's name, as a transaction manager would give it. */
record TestXid(int format, byte[] global, byte[] branch) implements Xid {
    private static final int FORMAT = 0x54455354;

    /** The XID that a script calls by a name: a letter, perhaps with a branch behind a `/`, or one of a special form. */
    static TestXid of(int script, String name) {
        byte[] unit = (script + name.split("/")[0]).getBytes(StandardCharsets.US_ASCII);
        byte[] branch = name.substring(name.indexOf('/') + 1).getBytes(StandardCharsets.US_ASCII);
        return switch (name) {
            case "full" -> new TestXid(FORMAT, Arrays.copyOf(unit, MAXGTRIDSIZE), Arrays.copyOf(branch, MAXBQUALSIZE));
            case "long" -> new TestXid(FORMAT, Arrays.copyOf(unit, MAXGTRIDSIZE + 1), branch);
            case "nobranch" -> new TestXid(FORMAT, unit, new byte[0]);
            case "noglobal" -> new TestXid(FORMAT, new byte[0], branch);
            case "negative" -> new TestXid(-2, unit, branch);
            case "null" -> new TestXid(-1, unit, branch);
            default -> new TestXid(FORMAT, unit, branch);
        };
    }

    boolean isSame(Xid other) {
        return format == other.getFormatId() && Arrays.equals(global, other.getGlobalTransactionId())
            && Arrays.equals(branch, other.getBranchQualifier());
    }

    @Override
    public int getFormatId() {
        return format;
    }

    @Override
    public byte[] getGlobalTransactionId() {
        return global.clone();
    }

    @Override
    public byte[] getBranchQualifier() {
        return branch.clone();
    }
}
