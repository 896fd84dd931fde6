#!/usr/bin/env python3
"""Tests of examples/cluster/pcommit_client.py against real processes: client.py PROGRAM."""
import os
import shutil
import sys
import tempfile
import threading
import time

from processes import Processes
from pcommit_client import Aborted, Cluster, Conflict, Gone, Refused, Unknown, digest


def raises(kind, work):
    """Whether a call raises an error of just this kind."""
    try:
        work()
    except Exception as error:
        return type(error) is kind
    return False


class Tests:
    def __init__(self, processes):
        self.processes = processes
        self.cluster = Cluster(processes.file, patience=1.0, most=3.0)

    def read(self, rm, key):
        return self.cluster.run(lambda tx: tx.get(rm, key))

    def write(self, *rows):
        def work(tx):
            for rm, key, value in rows:
                tx.put(rm, key, value)
        return self.cluster.run(work)

    def commits_at_both(self):
        with self.cluster.begin() as tx:
            tx.put(0, b'a', b'1')
            tx.put(1, b'b', b'')
            own = tx.get(0, b'a')
        return tx.outcome == 'committed' and own == b'1' and (self.read(0, b'a'), self.read(1, b'b')) == (b'1', b'')

    def reads_first_contents(self):
        return self.read(0, b'k') == b'0' and self.read(1, b'k') is None

    def deletes(self):
        self.write((0, b'd', b'1'))
        with self.cluster.begin() as tx:
            tx.delete(0, b'd')
        return self.read(0, b'd') is None

    def knows_the_cluster(self):
        """The hash by which a client knows the cluster is the one that stands beside a record."""
        with open(os.path.join(self.processes.records, 'r1.cluster')) as beside:
            return beside.read() == 'r1 %s\n' % digest(self.cluster.file).hex()

    def reads_tables(self):
        self.write((1, b'tb', b'2'))
        return self.cluster.table(1)[b'tb'] == b'2' and self.cluster.info('r1')['appends'] > 0

    def touches_nothing(self):
        with self.cluster.begin() as tx:
            pass
        return tx.outcome == 'committed'

    def an_error_rolls_back(self):
        def work():
            with self.cluster.begin() as tx:
                tx.put(0, b'e', b'1')
                raise KeyError
        return raises(KeyError, work) and self.read(0, b'e') is None

    def a_key_too_long_is_refused(self):
        def work():
            with self.cluster.begin() as tx:
                tx.put(0, b'f', b'1')
                tx.put(0, b'x' * 65, b'')
        return raises(Refused, work) and self.read(0, b'f') is None

    def no_call_after_the_end(self):
        with self.cluster.begin() as tx:
            tx.put(0, b'g', b'1')
        return raises(Refused, lambda: tx.put(0, b'g', b'2'))

    def a_conflict_is_told(self):
        other = Cluster(self.processes.file)
        tx = other.begin()
        tx.put(0, b'h', b'1')
        told = raises(Conflict, lambda: self.cluster.begin().put(0, b'h', b'2'))
        tx.rollback()
        other.close()
        return told and self.read(0, b'h') is None

    def runs_again_after_a_conflict(self):
        other, tries = Cluster(self.processes.file), []
        tx = other.begin()
        tx.put(0, b'i', b'1')
        threading.Timer(0.1, tx.commit).start()

        def work(mine):
            tries.append(1)
            mine.put(0, b'i', b'%s2' % (mine.get(0, b'i') or b''))
        self.cluster.run(work)
        return len(tries) > 1 and self.read(0, b'i') == b'12'

    def counts_of_many(self):
        """Threads that add to one number lose nothing."""
        self.write((0, b'n', b'0'))

        def add():
            cluster = Cluster(self.processes.file)
            for _ in range(10):
                cluster.run(lambda tx: tx.put(0, b'n', b'%d' % (int(tx.get(0, b'n')) + 1)))
            cluster.close()
        threads = [threading.Thread(target=add) for _ in range(4)]
        for thread in threads:
            thread.start()
        for thread in threads:
            thread.join()
        return self.read(0, b'n') == b'40'

    def another_leader_where_one_is_gone(self):
        self.processes.kill('l0')
        begun = time.monotonic()
        self.write((0, b'j', b'1'), (1, b'j', b'1'))
        took = time.monotonic() - begun
        self.processes.start('l0')
        return took < 2 and self.read(1, b'j') == b'1'

    def another_leader_where_one_hangs(self):
        cluster = Cluster(self.processes.file, patience=1.0)
        self.processes.pause(cluster.leaders[0], True)
        try:
            with cluster.begin() as tx:
                tx.put(0, b'k2', b'1')
        finally:
            self.processes.pause('l0', False)
            cluster.close()
        return tx.outcome == 'committed' and self.read(0, b'k2') == b'1'

    def no_leader_is_aborted(self):
        def work():
            with cluster.begin() as tx:
                tx.put(0, b'l', b'1')
        cluster = Cluster(self.processes.file, patience=0.5, most=1)
        for leader in ('l0', 'l1'):
            self.processes.kill(leader)
        is_so = raises(Aborted, work)
        self.processes.start('l0', 'l1')
        cluster.close()
        return is_so and self.read(0, b'l') is None

    def no_answer_is_unknown(self):
        cluster, names = Cluster(self.processes.file, patience=0.5, most=1), ('a0', 'a1', 'a2')
        for name in names:
            self.processes.pause(name, True)
        tx = cluster.begin()
        tx.put(0, b'm', b'1')
        tx.put(1, b'm', b'1')
        is_so = raises(Unknown, tx.commit) and tx.outcome == 'unknown'
        for name in names:
            self.processes.pause(name, False)
        outcome = cluster.settle(tx.name)
        cluster.close()
        found = b'1' if outcome == 'committed' else None
        return is_so and outcome in ('committed', 'aborted') and (self.read(0, b'm'), self.read(1, b'm')) == (found, found)

    def a_manager_that_is_gone_aborts(self):
        def work():
            with self.cluster.begin() as tx:
                tx.put(0, b'o', b'1')
                tx.put(1, b'o', b'1')
                self.processes.kill('r1')
                tx.put(1, b'p', b'1')
        is_so = raises(Aborted, work)
        self.processes.start('r1')
        return is_so and (self.read(0, b'o'), self.read(1, b'o')) == (None, None)

    def a_manager_that_starts_again_has_what_was_committed(self):
        self.write((1, b'q', b'1'))
        self.processes.kill('r1')
        self.processes.start('r1')
        return self.read(1, b'q') == b'1'

    def an_acceptor_less_is_enough(self):
        self.processes.kill('a1')
        self.write((0, b'r', b'1'), (1, b'r', b'1'))
        self.processes.start('a1')
        return self.read(0, b'r') == b'1'

    def a_wrong_key_gets_nothing(self):
        cluster = Cluster(self.processes.file, patience=1.0)
        cluster.key = bytes(32)
        is_so = raises(Gone, lambda: cluster.ask('r0', 'table r0'))
        cluster.key = None
        is_so = is_so and raises(Gone, lambda: [cluster.ask('r0', 'table r0'), cluster.ask('r0', 'table r0')])
        cluster.close()
        return is_so


def main(program):
    folder = tempfile.mkdtemp(prefix='pcommit-client-')
    passed = failed = 0
    with Processes(program, folder, tables=({'6b': '30'}, {})) as processes:
        processes.start()
        tests = Tests(processes)
        names = [name for name, value in vars(Tests).items() if callable(value) and name[0] != '_' and name not in ('read', 'write')]
        for name in names:
            begun = time.monotonic()
            try:
                is_so = getattr(tests, name)()
            except Exception as error:
                is_so = False
                print('client: %s: %r' % (name, error))
            passed += is_so
            failed += not is_so
            if not is_so:
                print('client: FAILED: %s (%.1f s)' % (name, time.monotonic() - begun))
        tests.cluster.close()
    shutil.rmtree(folder)
    print('client: %d passed, %d failed' % (passed, failed))
    sys.exit(failed != 0 or passed < 15)


if __name__ == '__main__':
    main(*sys.argv[1:])
