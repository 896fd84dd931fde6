#!/usr/bin/python3
"""A transaction over two PostgreSQL servers, with one process killed at one step of it and started again: each of those below, at each step
below. Both servers end the same, as the application was told, nothing is left prepared, and a prepared transaction of others is left alone.
And where names are timed, resolvers that are down for ten times as long as names are kept: postgresql.py PROGRAM. Needs Debian's postgresql
and python3-psycopg2; without them nothing is run, and that is said."""
import os
import shutil
import subprocess
import sys
import tempfile
import threading
import time

try:
    import psycopg2
except ImportError:
    psycopg2 = None

from processes import HERE, Processes, until

EXAMPLES = os.path.join(HERE, '..', '..', 'examples', 'postgresql')
sys.path.append(EXAMPLES)
STEPS = ('worked at 0', 'worked at 1', 'prepared at 0', 'prepared at 1', 'said at 0', 'said at 1', 'decided', 'ended at 0', 'ended at 1')
KILLED = ('resolvers', 'l0', 'l0 l1', 'r0', 'a0', 'server 0', 'application')
OTHERS = 'another:1'
# for how many milliseconds names are kept, where they are timed
KEEP = 1000


class Place:
    """Two servers, a cluster, and a resolver for each server."""

    def __init__(self, program, folder, **words):
        from servers import Servers
        self.cluster = Processes(program, os.path.join(folder, 'cluster'), **words)
        self.servers, self.resolvers = Servers(folder, accounts=4), []
        self.dsns = [self.servers[0].dsn, self.servers[1].dsn]
        try:
            self.begin()
        except BaseException:
            self.stop()
            raise

    def begin(self):
        self.cluster.start()
        self.cluster.watch()
        self.start_resolvers()
        self.servers[0].ask("BEGIN; UPDATE account SET balance = balance WHERE number = 1; PREPARE TRANSACTION '%s'" % OTHERS)

    def start_resolvers(self):
        for rm in (0, 1):
            words = [sys.executable, os.path.join(EXAMPLES, 'resolver.py'), self.cluster.file, str(rm), self.dsns[rm]]
            env = dict(os.environ, PCOMMIT_GRACE='1', PCOMMIT_EVERY='0.05')
            self.resolvers.append(subprocess.Popen(words, stderr=subprocess.DEVNULL, env=env))

    def stop_resolvers(self):
        while self.resolvers:
            one = self.resolvers.pop()
            one.kill()
            one.wait()

    def kill(self, name):
        if name == 'resolvers':
            self.stop_resolvers()
        elif name == 'server 0':
            self.servers[0].kill()
        else:
            for node in name.split():
                self.cluster.kill(node)

    def start(self, name):
        if name == 'resolvers':
            self.start_resolvers()
        elif name == 'server 0':
            self.servers[0].start()
        else:
            self.cluster.start(*name.split())

    def stop(self):
        self.stop_resolvers()
        self.cluster.stop()
        self.servers.stop()


class Gone(BaseException):
    """The application is gone: nothing of it goes on."""


def cell(place, killed, step):
    """What is wrong where a process is killed at a step."""
    from pay import Payer
    from pcommit_client import Aborted, Cluster, Unknown
    before, back = [one.balances()[0] for one in place.servers.all], []

    def at(name):
        if name == step and not back:
            if killed == 'application':
                back.append(None)
                raise Gone
            place.kill(killed)
            back.append(threading.Timer(0.3, place.start, [killed]))
            back[0].start()
    payer = Payer(Cluster(place.cluster.file, patience=1, most=20), place.dsns, at)
    try:
        payer.pay(0, 0, 5)
        told = 'committed'
    except Aborted:
        told = 'aborted'
    except (Unknown, Gone):
        told = 'unknown'
    payer.close()
    for one in back:
        if one:
            one.join()
    until = time.monotonic() + 20
    while time.monotonic() < until and place.servers.prepared() != [[OTHERS], []]:
        time.sleep(0.05)
    if place.servers.prepared() != [[OTHERS], []]:
        return 'prepared are %s' % place.servers.prepared()
    moved = [one.balances()[0] - was for one, was in zip(place.servers.all, before)]
    if moved not in {'committed': [[-5, 5]], 'aborted': [[0, 0]]}.get(told, [[0, 0], [-5, 5]]):
        return 'the application was told %s, and the servers moved %s' % (told, moved)
    return told if back else 'the step was never reached'


class Timed:
    """A place where names are timed and resolvers raise floors, and an application that is gone once its transaction is decided."""

    def __init__(self, place):
        from pcommit_client import Cluster
        self.place, self.client = place, Cluster(place.cluster.file, patience=10)

    def pay(self, account, step=lambda name: None):
        """A payment between accounts of this number; its transaction."""
        from pay import Payer
        from pcommit_client import Aborted, Cluster, Unknown
        while True:
            payer = Payer(Cluster(self.place.cluster.file, patience=10), self.place.dsns, step)
            try:
                return payer.pay(account, account, 5)
            except (Aborted, Unknown):
                time.sleep(0.05)
            finally:
                payer.close()

    def floors(self):
        return [self.client.info(name).get('floor', '') for name in self.place.cluster.names]

    def rises_above(self, tx):
        """Whether all floors come to stand above a transaction, while others are paid."""
        def is_so():
            self.pay(2)
            return min(self.floors()) > tx.split('/')[0]
        return until(is_so)

    def is_kept(self, tx):
        return [self.client.ask('r%d' % rm, 'view r%d %s' % (rm, tx))[0] for rm in (0, 1)] == ['committed'] * 2

    def lose(self):
        """A transaction that is decided, and whose application is gone then."""
        def at(name):
            if name == 'decided':
                raise Gone
        try:
            self.pay(0, at)
        except Gone:
            return next(gid for gid in self.place.servers.prepared()[0] if gid.startswith('pcommit:0:'))[len('pcommit:0:'):]

    def run(self):
        """What is wrong, or None."""
        first = self.pay(2).name
        if not self.rises_above(first):
            return 'no floors rise: %s' % self.floors()
        self.place.stop_resolvers()
        before = self.place.servers[0].balances()[0]
        tx = self.lose()
        end = time.monotonic() + 10 * KEEP / 1000
        while time.monotonic() < end:
            self.pay(2)
        if not self.is_kept(tx) or 'pcommit:0:' + tx not in self.place.servers.prepared()[0]:
            return 'the outcome was forgotten, or was known to nobody'
        self.place.start_resolvers()
        if not until(lambda: self.place.servers.prepared() == [[OTHERS], []]):
            return 'prepared are %s' % self.place.servers.prepared()
        if self.place.servers[0].balances()[0] != before - 5:
            return 'it was committed, and the server has %s' % self.place.servers[0].balances()
        if not self.rises_above(tx):
            return 'floors stay: %s' % self.floors()
        return None if not self.is_kept(tx) else 'nothing was forgotten'


def timed(program):
    """What is wrong where resolvers raise floors, or None."""
    folder = tempfile.mkdtemp(prefix='pcommit-postgresql-')
    os.chmod(folder, 0o755)
    place = Place(program, folder, names={'keep': KEEP}, beside=(0, 1))
    try:
        return Timed(place).run()
    finally:
        place.stop()
        shutil.rmtree(folder)


def lane(program, cells, found):
    folder = tempfile.mkdtemp(prefix='pcommit-postgresql-')
    os.chmod(folder, 0o755)
    place = Place(program, folder)
    try:
        for one in cells:
            found[one] = cell(place, *one)
    finally:
        place.stop()
        shutil.rmtree(folder)


def main(program):
    if psycopg2 is None or not os.path.isdir('/usr/lib/postgresql'):
        print('postgresql: left out: apt-get install postgresql python3-psycopg2')
        print('postgresql: 0 passed, 0 failed')
        return
    cells, found, begun = [(killed, step) for killed in KILLED for step in STEPS], {}, time.monotonic()
    lanes = [threading.Thread(target=lane, args=(program, cells[n::2], found)) for n in range(2)]
    for one in lanes:
        one.start()
    for one in lanes:
        one.join()
    right = ('committed', 'aborted', 'unknown')
    print('postgresql: %-12s%s' % ('killed at', ' '.join('%-13s' % step for step in STEPS)))
    for killed in KILLED:
        print('postgresql: %-12s%s' % (killed, ' '.join('%-13s' % (found.get((killed, step), 'not run')[:13]) for step in STEPS)))
    for one in cells:
        if found.get(one) not in right:
            print('postgresql: FAILED: %s killed, %s: %s' % (*one, found.get(one, 'not run')))
    wrong = timed(program)
    print('postgresql: resolvers down for ten times as long as names are kept: %s' % (wrong or 'all was ended, and then forgotten'))
    passed, total = sum(found.get(one) in right for one in cells) + (wrong is None), len(cells) + 1
    print('postgresql: %d passed, %d failed (%.0f s)' % (passed, total - passed, time.monotonic() - begun))
    sys.exit(passed < total)


if __name__ == '__main__':
    main(*sys.argv[1:])
