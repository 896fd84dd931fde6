"""A transaction over two PostgreSQL servers, whose outcome pcommit decides. At each server it is a prepared transaction; beside each server
stands a resource manager of pcommit, whose branch says that the server has prepared.

    application      server 0, 1            manager 0, 1        leader
    start -------------------------------------->| "may prepare"   |
    BEGIN, UPDATE -->|                          |                  |
    PREPARE -------->| stored, rows locked      |                  |
    end ---------------------------------------->| "has prepared"  |
    commit, await -------------------------------------------------->| asks both to vote; decides
    COMMIT PREPARED->| rows free                |                  |

The branch is begun before the server prepares: where it stands, the manager forgets nothing of the transaction. It is ended after the
server has prepared, and not before: a manager that votes prepared speaks for its server. Whoever dies after PREPARE leaves the rest to the
resolvers."""
import os
import re
import sys

import psycopg2

sys.path.insert(0, os.path.join(os.path.dirname(os.path.abspath(__file__)), '..', 'cluster'))
from pcommit_client import Aborted, Conflict, Gone, Transaction, Unknown

PREFIX = 'pcommit:'
TX = re.compile(r'\d+:[0-9a-f]+/\d+=[0-9a-f]+(,\d+=[0-9a-f]+)*')


def gid_of(rm, tx):
    """The name of a transaction's part at a server, which says all that its resolver has to know."""
    return '%s%d:%s' % (PREFIX, rm, tx)


def tx_of(rm, gid):
    """The transaction of a name, None where it is none of ours."""
    mine = '%s%d:' % (PREFIX, rm)
    return gid[len(mine):] if gid.startswith(mine) and TX.fullmatch(gid[len(mine):]) else None


def end_prepared(cursor, gid, outcome):
    """Ends a prepared transaction. Nothing where another has ended it already."""
    try:
        cursor.execute(('COMMIT' if outcome == 'committed' else 'ROLLBACK') + ' PREPARED %s', (gid,))
    except (psycopg2.errors.UndefinedObject, psycopg2.errors.ObjectNotInPrerequisiteState):
        pass


class Payer:
    """Moves money between accounts of two servers. `step(name)` is called at each step, for who wants to see or stop it there."""

    def __init__(self, cluster, dsns, step=lambda name: None):
        self.cluster, self.dsns, self.step = cluster, dsns, step
        self.connections = [None, None]

    def cursor(self, rm):
        if self.connections[rm] is None or self.connections[rm].closed:
            self.connections[rm] = psycopg2.connect(self.dsns[rm])
            self.connections[rm].autocommit = True
        return self.connections[rm].cursor()

    def close(self):
        for connection in self.connections:
            if connection:
                connection.close()
        self.cluster.close()

    def pay(self, source, target, amount):
        """Takes from an account at server 0 and gives to one at server 1. The transaction, which is committed; or Aborted, or Unknown."""
        tx = Transaction(self.cluster)
        tx.branches = [0, 1]
        try:
            for rm in (0, 1):
                self.ask(tx, rm, 'start')
            for rm, account, change in ((0, source, -amount), (1, target, amount)):
                self.work(rm, account, change)
                self.step('worked at %d' % rm)
            for rm in (0, 1):
                self.cursor(rm).execute('PREPARE TRANSACTION %s', (gid_of(rm, tx.name),))
                self.step('prepared at %d' % rm)
        except (Gone, Aborted) as error:
            self.give_up(tx)
            raise Aborted(str(error)) from error
        except psycopg2.Error as error:
            self.give_up(tx)
            raise (Conflict if isinstance(error, psycopg2.errors.LockNotAvailable) else Aborted)(str(error).strip()) from error
        return self.decide(tx)

    def ask(self, tx, rm, verb):
        """Begins or ends the branch at a manager."""
        answer = self.cluster.ask('r%d' % rm, '%s r%d %s' % (verb, rm, tx.xid(rm)))[0]
        if answer != '0':
            raise Aborted('r%d: %s' % (rm, answer))

    def work(self, rm, account, change):
        cursor = self.cursor(rm)
        cursor.execute("BEGIN; SET LOCAL lock_timeout = '2s'")
        cursor.execute('UPDATE account SET balance = balance + %s WHERE number = %s', (change, account))

    def decide(self, tx):
        try:
            for rm in (0, 1):
                self.ask(tx, rm, 'end')
                self.step('said at %d' % rm)
        except (Gone, Aborted) as error:
            self.give_up(tx)
            raise Aborted(str(error)) from error
        try:
            outcome = self.cluster.settle(tx.name)
        except Gone as error:
            # a leader that wasn't reached can't have asked anybody
            self.give_up(tx)
            raise Aborted(str(error)) from error
        self.step('decided')
        self.end(tx, outcome)
        if outcome == 'aborted':
            raise Aborted(tx.name)
        return tx

    def end(self, tx, outcome):
        """Ends it at the servers. Where one can't be reached, its resolver does so."""
        for rm in (0, 1):
            try:
                end_prepared(self.cursor(rm), gid_of(rm, tx.name), outcome)
            except psycopg2.Error:
                pass
            self.step('ended at %d' % rm)

    def give_up(self, tx):
        """Rolls back what nobody was asked to commit. What can't be reached now, its resolver rolls back."""
        tx.rollback()
        for rm in (0, 1):
            try:
                cursor = self.cursor(rm)
                cursor.execute('ROLLBACK')
                end_prepared(cursor, gid_of(rm, tx.name), 'aborted')
            except psycopg2.Error:
                pass
