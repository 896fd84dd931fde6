package pcommit.xa;

import java.util.ArrayList;
import java.util.EnumMap;
import java.util.LinkedHashSet;
import java.util.List;
import java.util.Map;
import java.util.Set;
import javax.transaction.xa.XAException;
import javax.transaction.xa.XAResource;
import javax.transaction.xa.Xid;

/** A resource that keeps branches as a good one does, notes each call, and fails where a test has it. */
final class ScriptedResource implements XAResource {
    /** The calls of a resource. */
    enum Call { START, END, PREPARE, COMMIT, ROLLBACK, RECOVER, FORGET, IS_SAME_RM }

    /** What a call does in place of its work, or before it. */
    interface Deed {
        void run() throws XAException;
    }

    private final String name;
    private final List<String> log;
    private final Map<Call, Deed> deeds = new EnumMap<>(Call.class);
    private final Set<Xid> prepared = new LinkedHashSet<>();
    private int prepareAnswer = XA_OK;

    ScriptedResource(final String name, final List<String> log) {
        this.name = name;
        this.log = log;
    }

    static XAException error(final int code) {
        return new XAException(code);
    }

    ScriptedResource on(final Call call, final Deed deed) {
        deeds.put(call, deed);
        return this;
    }

    ScriptedResource answering(final int answer) {
        prepareAnswer = answer;
        return this;
    }

    /** Makes a branch be there as prepared. */
    ScriptedResource with(final Xid xid) {
        prepared.add(xid);
        return this;
    }

    synchronized List<Xid> prepared() {
        return List.copyOf(prepared);
    }

    synchronized void lose(final Xid xid) {
        prepared.remove(xid);
    }

    private void note(final Call call, final String words) throws XAException {
        synchronized (log) {
            log.add(call + " " + name + words);
        }
        final Deed deed = deeds.get(call);
        if (deed != null) {
            deed.run();
        }
    }

    @Override
    public void start(final Xid xid, final int flags) throws XAException {
        note(Call.START, flags == TMJOIN ? " again" : "");
    }

    @Override
    public void end(final Xid xid, final int flags) throws XAException {
        note(Call.END, flags == TMFAIL ? " failed" : "");
    }

    @Override
    public int prepare(final Xid xid) throws XAException {
        note(Call.PREPARE, "");
        synchronized (this) {
            if (prepareAnswer == XA_OK) {
                prepared.add(xid);
            }
        }
        return prepareAnswer;
    }

    @Override
    public void commit(final Xid xid, final boolean isOnePhase) throws XAException {
        note(Call.COMMIT, isOnePhase ? " in one phase" : "");
        end(xid, isOnePhase);
    }

    @Override
    public void rollback(final Xid xid) throws XAException {
        note(Call.ROLLBACK, "");
        end(xid, true);
    }

    private synchronized void end(final Xid xid, final boolean isAny) throws XAException {
        if (!prepared.removeIf(other -> other.equals(xid)) && !isAny) {
            throw error(XAException.XAER_NOTA);
        }
    }

    @Override
    public void forget(final Xid xid) throws XAException {
        note(Call.FORGET, "");
    }

    @Override
    public Xid[] recover(final int flags) throws XAException {
        note(Call.RECOVER, "");
        if (flags != (TMSTARTRSCAN | TMENDRSCAN)) {
            return null;
        }
        synchronized (this) {
            return new ArrayList<>(prepared).toArray(Xid[]::new);
        }
    }

    @Override
    public boolean isSameRM(final XAResource other) throws XAException {
        note(Call.IS_SAME_RM, "");
        return true;
    }

    @Override
    public int getTransactionTimeout() {
        return 0;
    }

    @Override
    public boolean setTransactionTimeout(final int seconds) {
        return false;
    }
}
