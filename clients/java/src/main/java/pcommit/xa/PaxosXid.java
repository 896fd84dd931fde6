package pcommit.xa;

import java.util.HexFormat;
import javax.transaction.xa.Xid;
import pcommit.client.BranchName;

/**
 * The name of a branch as resources take it: pcommit's own format, a gtrid of 16 bytes that grows with time, and a bqual that says which
 * resource manager of which cluster it belongs to. Resources and resource managers know a branch by the same name.
 */
public final class PaxosXid implements Xid {
    /** The format of all names of pcommit: {@code PCMT} in ASCII. */
    public static final int FORMAT = 0x50434D54;

    private final BranchName name;

    PaxosXid(final BranchName name) {
        this.name = name;
    }

    /**
     * The name as the cluster has it.
     *
     * @return the same three parts
     */
    public BranchName name() {
        return name;
    }

    /** The key, in hex, of the row that a committed transaction leaves at its resource managers. */
    String rowKey() {
        return HexFormat.of().formatHex(name.gtrid());
    }

    @Override
    public int getFormatId() {
        return name.format();
    }

    @Override
    public byte[] getGlobalTransactionId() {
        return name.gtrid();
    }

    @Override
    public byte[] getBranchQualifier() {
        return name.bqual();
    }

    @Override
    public boolean equals(final Object other) {
        return other instanceof PaxosXid xid && xid.name.equals(name);
    }

    @Override
    public int hashCode() {
        return name.hashCode();
    }

    @Override
    public String toString() {
        return name.toString();
    }
}
