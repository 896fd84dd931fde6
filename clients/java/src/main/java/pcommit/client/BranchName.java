package pcommit.client;

import java.util.Arrays;
import java.util.HexFormat;

/**
 * The name of a branch: an XID of X/Open XA.
 *
 * @param format from 0
 * @param gtrid  1 to 64 bytes, the same in all branches of a transaction
 * @param bqual  1 to 64 bytes
 */
public record BranchName(int format, byte[] gtrid, byte[] bqual) {
    /** The most bytes of each part. */
    public static final int MOST_BYTES = 64;

    /**
     * A name, whose bytes are kept as they are now.
     *
     * @param format from 0
     * @param gtrid  1 to 64 bytes
     * @param bqual  1 to 64 bytes
     * @throws IllegalArgumentException where there is no such name
     */
    public BranchName {
        if (format < 0) {
            throw new IllegalArgumentException("a format is from 0: " + format);
        }
        gtrid = part(gtrid);
        bqual = part(bqual);
    }

    static byte[] part(final byte[] bytes) {
        if (bytes.length < 1 || bytes.length > MOST_BYTES) {
            throw new IllegalArgumentException("a part of a name has 1 to 64 bytes, and not " + bytes.length);
        }
        return bytes.clone();
    }

    /**
     * What all branches of a transaction share.
     *
     * @return its bytes
     */
    @Override
    public byte[] gtrid() {
        return gtrid.clone();
    }

    /**
     * Which of them it is.
     *
     * @return its bytes
     */
    @Override
    public byte[] bqual() {
        return bqual.clone();
    }

    @Override
    public boolean equals(final Object other) {
        return other instanceof BranchName name && name.format == format && Arrays.equals(name.gtrid, gtrid)
                && Arrays.equals(name.bqual, bqual);
    }

    @Override
    public int hashCode() {
        return 31 * (31 * format + Arrays.hashCode(gtrid)) + Arrays.hashCode(bqual);
    }

    @Override
    public String toString() {
        final HexFormat hex = HexFormat.of();
        return format + ":" + hex.formatHex(gtrid) + ":" + hex.formatHex(bqual);
    }
}
