package pcommit.client;

import java.util.Arrays;
import java.util.Collections;
import java.util.HexFormat;
import java.util.SortedMap;
import java.util.TreeMap;
import java.util.stream.Collectors;

/** The name of a transaction, which says who takes part: a format, a gtrid, and for each resource manager the bqual of its branch there. */
public final class TransactionName {
    /** The most resource managers that take part in one. */
    public static final int MOST_BRANCHES = 16;

    private final int format;
    private final byte[] gtrid;
    private final SortedMap<Integer, byte[]> bquals;

    /**
     * A name.
     *
     * @param format from 0
     * @param gtrid  1 to 64 bytes
     * @param bquals by the number of each resource manager that takes part, 1 to 16 of them
     * @throws IllegalArgumentException where there is no such name
     */
    public TransactionName(final int format, final byte[] gtrid, final SortedMap<Integer, byte[]> bquals) {
        if (format < 0 || bquals.isEmpty() || bquals.size() > MOST_BRANCHES) {
            throw new IllegalArgumentException("a transaction has a format from 0 and 1 to 16 branches: " + format + ", " + bquals.size());
        }
        this.format = format;
        this.gtrid = BranchName.part(gtrid);
        final SortedMap<Integer, byte[]> own = new TreeMap<>();
        bquals.forEach((manager, bqual) -> own.put(manager, BranchName.part(bqual)));
        this.bquals = Collections.unmodifiableSortedMap(own);
    }

    /**
     * Reads a name, as {@code 1:74/0=61,1=62}.
     *
     * @param text the name
     * @return the transaction
     * @throws IllegalArgumentException where the text names none
     */
    public static TransactionName parse(final String text) {
        if (!text.matches("[0-9]{1,10}:[0-9a-f]+/[0-9]{1,2}=[0-9a-f]+(,[0-9]{1,2}=[0-9a-f]+)*")) {
            throw new IllegalArgumentException("it names no transaction: " + text);
        }
        final String[] parts = text.split("[:/]");
        final SortedMap<Integer, byte[]> bquals = new TreeMap<>();
        for (final String branch : parts[2].split(",")) {
            final String[] words = branch.split("=");
            bquals.put(Integer.parseInt(words[0]), HexFormat.of().parseHex(words[1]));
        }
        return new TransactionName(Integer.parseInt(parts[0]), HexFormat.of().parseHex(parts[1]), bquals);
    }

    /**
     * The format.
     *
     * @return from 0
     */
    public int format() {
        return format;
    }

    /**
     * What all its branches share.
     *
     * @return its bytes
     */
    public byte[] gtrid() {
        return gtrid.clone();
    }

    /**
     * Who takes part.
     *
     * @return the resource managers by their numbers, each with the bqual of its branch
     */
    public SortedMap<Integer, byte[]> bquals() {
        return bquals;
    }

    /**
     * Its branch at a resource manager.
     *
     * @param manager the manager's number
     * @return the branch's name
     * @throws IllegalArgumentException where the manager takes no part
     */
    public BranchName branch(final int manager) {
        final byte[] bqual = bquals.get(manager);
        if (bqual == null) {
            throw new IllegalArgumentException("r" + manager + " takes no part in " + this);
        }
        return new BranchName(format, gtrid, bqual);
    }

    @Override
    public boolean equals(final Object other) {
        return other instanceof TransactionName name && toString().equals(name.toString());
    }

    @Override
    public int hashCode() {
        return 31 * format + Arrays.hashCode(gtrid);
    }

    @Override
    public String toString() {
        final HexFormat hex = HexFormat.of();
        return format + ":" + hex.formatHex(gtrid) + "/" + bquals.entrySet().stream()
                .map(branch -> branch.getKey() + "=" + hex.formatHex(branch.getValue())).collect(Collectors.joining(","));
    }
}
