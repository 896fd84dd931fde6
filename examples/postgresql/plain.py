#!/usr/bin/python3
"""Two-phase commit as a coordinator with a log does it, to compare: plain.py LOG DSN DSN settles what the log and the servers have left."""
import os
import sys

import psycopg2

from pay import end_prepared

PREFIX = 'plain:'


class Coordinator:
    """Moves money between accounts of two servers. A transaction is committed once its name is in the log."""

    def __init__(self, log, dsns, step=lambda name: None):
        self.log, self.dsns, self.step = open(log, 'a+'), dsns, step
        self.connections = [psycopg2.connect(dsn) for dsn in dsns]
        for connection in self.connections:
            connection.autocommit = True

    def pay(self, source, target, amount):
        gid = PREFIX + os.urandom(16).hex()
        cursors = [connection.cursor() for connection in self.connections]
        for rm, account, change in ((0, source, -amount), (1, target, amount)):
            cursors[rm].execute("BEGIN; SET LOCAL lock_timeout = '2s'")
            cursors[rm].execute('UPDATE account SET balance = balance + %s WHERE number = %s', (change, account))
        for rm in (0, 1):
            cursors[rm].execute('PREPARE TRANSACTION %s', (gid,))
            self.step('prepared at %d' % rm)
        self.log.write(gid + '\n')
        self.log.flush()
        os.fdatasync(self.log.fileno())
        self.step('decided')
        for rm in (0, 1):
            end_prepared(cursors[rm], gid, 'committed')

    def recover(self):
        """Ends what is prepared: committed where it stands in the log. How many that were."""
        self.log.seek(0)
        decided, ended = set(self.log.read().split('\n')[:-1]), 0
        for connection in self.connections:
            cursor = connection.cursor()
            cursor.execute('SELECT gid FROM pg_prepared_xacts WHERE database = current_database() AND starts_with(gid, %s)', (PREFIX,))
            for gid, in cursor.fetchall():
                end_prepared(cursor, gid, 'committed' if gid in decided else 'aborted')
                ended += 1
        return ended


if __name__ == '__main__':
    print('%d ended' % Coordinator(sys.argv[1], sys.argv[2:4]).recover())
