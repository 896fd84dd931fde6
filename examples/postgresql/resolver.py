#!/usr/bin/python3
"""Ends the prepared transactions of one PostgreSQL server as the pcommit manager beside it says: resolver.py CLUSTER.toml RM DSN.

Every while it lists what is prepared at the server under our names, and asks the manager where each transaction stands:
    committed  COMMIT PREPARED
    aborted    ROLLBACK PREPARED
    prepared   nothing: the manager asks leaders by itself
    working    nothing at first; once it has been prepared for longer than GRACE, its application is taken for gone, and a leader is
               asked to decide (`timeout`): committed if all have voted so after all, else aborted
    refused 17 it says so, and nothing else: its name stands below the manager's floor
Where names are timed it also raises the floor of a manager with `beside = true`: to where that may rise by its clock and its branches, but
not above the oldest name that is prepared here.
It keeps nothing, so it may be started and killed at any time. It ends nothing whose outcome it wasn't told, and touches no other names."""
import os
import sys
import time

import psycopg2

from pay import PREFIX, end_prepared, tx_of
from pcommit_client import FINAL, FORGOTTEN, Cluster, Gone, Refused, rank

EVERY = float(os.environ.get('PCOMMIT_EVERY', '0.1'))
GRACE = float(os.environ.get('PCOMMIT_GRACE', '5'))
LIST = ('SELECT gid, extract(epoch FROM clock_timestamp() - prepared) FROM pg_prepared_xacts '
        'WHERE database = current_database() AND starts_with(gid, %s)')


class Resolver:
    def __init__(self, file, rm, dsn):
        self.cluster, self.rm, self.dsn = Cluster(file), int(rm), dsn
        self.node, self.connection, self.said = 'r%d' % self.rm, None, None
        names, own = self.cluster.file.get('names', {}), self.cluster.file['rm'][self.rm]
        # how often the floor is raised, in seconds: twice in the time for which names are kept. None where it isn't for a resolver to do
        self.rises = names.get('keep', 600000) / 2000 if names.get('timed') and own.get('beside') else None
        self.next_rise = time.monotonic()

    def say(self, words):
        """Says what is wrong, once."""
        if words != self.said:
            self.said = words
            if words:
                print('resolver %s: %s' % (self.node, words), file=sys.stderr, flush=True)

    def cursor(self):
        if self.connection is None or self.connection.closed:
            self.connection = psycopg2.connect(self.dsn)
            self.connection.autocommit = True
        return self.connection.cursor()

    def may_rise(self):
        """To where the manager's floor may rise, if it is time to raise it. It begins no branch below that any more."""
        if self.rises is None or time.monotonic() < self.next_rise:
            return None
        return self.cluster.info(self.node).get('rise')

    def raise_floor(self, to, names):
        """Raises the manager's floor to a place, but not above what is prepared here, over the connection over which the place was said.
        Who prepares here has begun a branch at the manager before, and ends it after, so what has voted below the place and is prepared is
        among these names, which were listed after the place was said. Says which of them holds the floor back, if one does."""
        place = min([to, *(name.split('/')[0] for name in names)], key=rank)
        if place != to:
            print('resolver %s: the floor stays at or below %s: that is prepared here' % (self.node, place), file=sys.stderr, flush=True)
        try:
            self.cluster.raise_floor(self.rm, place)
            self.next_rise = time.monotonic() + self.rises
        except Refused as error:
            self.say(str(error))

    def round(self):
        """Looks at each prepared transaction once. How many were ended."""
        to = self.may_rise()
        cursor = self.cursor()
        cursor.execute(LIST, (PREFIX,))
        ended, forgotten, names = 0, [], []
        for gid, age in cursor.fetchall():
            tx = tx_of(self.rm, gid)
            if tx is None:
                continue
            view = self.cluster.ask(self.node, 'view %s %s' % (self.node, tx))[0]
            if view in FINAL:
                end_prepared(cursor, gid, view)
                ended += 1
            elif view == 'working' and age > GRACE:
                self.ask_leaders(tx)
            elif view == FORGOTTEN:
                forgotten.append(tx)
            if view != FORGOTTEN:
                names.append(tx)
        self.say('prepared here and forgotten by their manager; see how they ended elsewhere, and end them by hand: ' + ' '.join(forgotten)
                 if forgotten else None)
        if to:
            self.raise_floor(to, names)
        return ended

    def ask_leaders(self, tx):
        """Has one leader decide."""
        for leader in self.cluster.leaders:
            try:
                if self.cluster.ask(leader, 'timeout %s %s' % (leader, tx))[0] == 'ok':
                    return
            except Gone:
                continue

    def live(self):
        while True:
            try:
                self.round()
            except (psycopg2.Error, Gone) as error:
                self.say(str(error).strip().split('\n')[0])
            time.sleep(EVERY)


if __name__ == '__main__':
    if len(sys.argv) != 4:
        raise SystemExit('usage: resolver.py CLUSTER.toml RM DSN')
    Resolver(*sys.argv[1:]).live()
