package pcommit.xa;

import static org.junit.jupiter.api.Assertions.assertEquals;
import static org.junit.jupiter.api.Assertions.assertFalse;
import static org.junit.jupiter.api.Assertions.assertThrows;
import static org.junit.jupiter.api.Assertions.assertTrue;

import javax.transaction.NotSupportedException;
import javax.transaction.RollbackException;
import javax.transaction.Status;
import javax.transaction.SystemException;
import javax.transaction.xa.XAResource;
import org.junit.jupiter.api.Test;

/** What applications do wrong, and that nothing is committed then. */
final class BadInputTest extends TwoResources {
    @Test
    void unknownResources() throws Exception {
        assertThrows(IllegalArgumentException.class, () -> manager.resource("none", first));
        manager.begin();
        assertThrows(SystemException.class, () -> manager.getTransaction().enlistResource(first));
        assertEquals(Status.STATUS_MARKED_ROLLBACK, manager.getStatus());
        manager.rollback();
        manager.begin();
        assertThrows(SystemException.class, () -> manager.getTransaction().enlistResource(new NamedResource("none", first)));
        assertThrows(RollbackException.class, manager::commit);
    }

    @Test
    void twoResourcesOfOneName() throws Exception {
        manager.begin();
        manager.enlist("one", first);
        assertThrows(SystemException.class, () -> manager.enlist("one", second));
        assertThrows(RollbackException.class, manager::commit);
        assertNothingIsCommitted();
    }

    @Test
    void theSameResourceTwiceIsInOnce() throws Exception {
        beginBoth();
        manager.enlist("one", first);
        assertEquals(1, count("START first"));
        manager.commit();
        assertEquals(1, count("COMMIT first"));
    }

    @Test
    void aResourceThatWasDelistedGoesOn() throws Exception {
        beginBoth();
        final XAResource one = manager.resource("one", first);
        assertTrue(manager.getTransaction().delistResource(one, XAResource.TMSUCCESS));
        manager.enlist("one", first);
        assertEquals(1, count("START first again"));
        manager.commit();
        assertEquals(2, count("END first"));
    }

    @Test
    void aResourceThatIsDelistedAsFailedRollsBack() throws Exception {
        beginBoth();
        assertTrue(manager.getTransaction().delistResource(manager.resource("one", first), XAResource.TMFAIL));
        assertFalse(manager.getTransaction().delistResource(new ScriptedResource("x", log), XAResource.TMSUCCESS));
        assertThrows(SystemException.class, () -> manager.getTransaction().delistResource(manager.resource("two", second),
                XAResource.TMSUSPEND));
        assertThrows(RollbackException.class, manager::commit);
        assertNothingIsCommitted();
    }

    @Test
    void oneResourceOfTwoManagers() throws Exception {
        manager.begin();
        manager.enlist("one", first);
        assertThrows(SystemException.class, () -> manager.enlist("two", first));
        assertThrows(RollbackException.class, manager::commit);
    }

    @Test
    void namesAndNumbersThatAreNone() {
        for (final String name : new String[] {"", "x".repeat(65), "one"}) {
            assertThrows(IllegalArgumentException.class, () -> manager.register(name, 5), name);
        }
        manager.register("x".repeat(64), 5);
        assertThrows(IllegalArgumentException.class, () -> manager.register("three", 0));
        assertThrows(IllegalArgumentException.class, () -> manager.register("three", 18));
        assertThrows(IllegalArgumentException.class, () -> manager.register("three", -1));
    }

    @Test
    void moreThanSixteenResources() throws Exception {
        for (int number = 2; number < 18; number++) {
            manager.register("r" + number, number, PrepareAnswer.TRUSTED);
        }
        beginBoth();
        for (int number = 2; number < 16; number++) {
            manager.enlist("r" + number, new ScriptedResource("r" + number, log));
        }
        assertThrows(SystemException.class, () -> manager.enlist("r16", new ScriptedResource("r16", log)));
        assertThrows(RollbackException.class, manager::commit);
        manager.begin();
        for (int number = 2; number < 18; number++) {
            manager.enlist("r" + number, new ScriptedResource("r" + number, log));
        }
        manager.commit();
        assertEquals(1, count("COMMIT r17"));
    }

    @Test
    void callsWithoutATransaction() throws Exception {
        assertThrows(IllegalStateException.class, manager::commit);
        assertThrows(IllegalStateException.class, manager::rollback);
        assertThrows(IllegalStateException.class, manager::setRollbackOnly);
        assertThrows(IllegalStateException.class, () -> manager.enlist("one", first));
        manager.begin();
        assertThrows(NotSupportedException.class, manager::begin);
        final var transaction = manager.getTransaction();
        manager.commit();
        assertThrows(IllegalStateException.class, transaction::commit);
        assertThrows(IllegalStateException.class, transaction::rollback);
        assertThrows(IllegalStateException.class, () -> transaction.enlistResource(manager.resource("one", first)));
        assertThrows(SystemException.class, manager::suspend);
        assertThrows(SystemException.class, () -> manager.resume(transaction));
        manager.begin();
        manager.getTransaction().commit();
        manager.begin();
        manager.rollback();
    }
}
