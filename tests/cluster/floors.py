#!/usr/bin/env python3
"""Clusters of processes that forget: by an operator's floors, and by floors that follow the times of names; what is told of them, and what
is left: floors.py PROGRAM [TRANSACTIONS]."""
import shutil
import subprocess
import sys
import tempfile
import time

from processes import Processes, until

import pcommit_client
from pcommit_client import Aborted, Forgotten, Refused

# for how many seconds a node is waited for, or for a notice to be heard, or a branch to end
SOON = 20.0
# a manager tells its floor again after a minute
AGAIN = 75.0
# the order of names among these
FORMAT = '1:%032x'


def floor_at(tx):
    """The floor at which a transaction stands, as it is said."""
    return tx.split('/')[0]


class Floors:
    """A cluster, and what the tests know of it. Each test goes on where the one before it ended."""

    def __init__(self, cluster, count):
        self.cluster, self.count = cluster, count
        self.client = pcommit_client.Cluster(cluster.file, patience=SOON)
        self.names, self.full, self.between = [], {}, None

    def commit(self, count, client=None, rms=(0, 1)):
        """Transactions over both managers, or one; the name of each. One that is aborted, as by a leader that heard of it late, is tried
        again."""
        def work(tx):
            for rm in rms:
                tx.put(rm, b'%d' % (number % 8), b'%d' % number)
            return tx
        names = []
        for number in range(count):
            names.append((client or self.client).run(work).name)
        return names

    def rise(self, rm, floor):
        """Raises a manager's floor, once the branches below have ended."""
        def is_done():
            try:
                self.client.raise_floor(rm, floor)
                return True
            except Refused:
                return False
        return until(is_done)

    def floors(self):
        return {name: self.client.info(name).get('floor') for name in self.cluster.names}

    def followed(self, most=SOON):
        """Whether acceptors and leaders come to have the least floor of both managers."""
        def is_so():
            floors = self.floors()
            least = min(floors['r0'], floors['r1'])
            return all(floor == least for name, floor in floors.items() if name[0] != 'r')
        return until(is_so, most)

    def sizes(self):
        return {name: len(self.cluster.record(name)) for name in self.cluster.names}

    def outcome(self, tx):
        try:
            return self.client.settle(tx)
        except Forgotten:
            return 'forgotten'

    def views(self, tx):
        return [self.client.ask('r%d' % rm, 'view r%d %s' % (rm, tx))[0] for rm in range(2)]


def nobody_has_a_floor_at_first(own):
    own.names = own.commit(own.count)
    own.full = own.sizes()
    return set(own.floors().values()) == {None} and own.outcome(own.names[0]) == 'committed'


def one_manager_raises_its_own_alone(own):
    own.between = floor_at(own.names[own.count // 2])
    is_done = own.rise(0, own.between)
    time.sleep(1)
    floors = own.floors()
    is_alone = floors.pop('r0') == own.between and set(floors.values()) == {None}
    return is_done and is_alone and own.views(own.names[0]) == ['refused 17', 'committed']


def all_follow_the_least_of_both(own):
    higher = floor_at(own.names[-1])
    is_done = own.rise(1, higher) and own.followed()
    floors, sizes = own.floors(), own.sizes()
    are_shorter = all(3 * sizes[name] < 2 * size for name, size in own.full.items() if size > 9000)
    return is_done and floors['r1'] == higher and floors['a0'] == own.between and are_shorter and own.full['a0'] > 9000


def what_is_below_is_over(own):
    first, last = own.names[0], own.names[-1]
    return ([own.outcome(tx) for tx in (first, last)] == ['forgotten', 'committed']
            and own.views(first) == ['refused 17'] * 2 and own.views(last) == ['committed'] * 2)


def what_is_below_is_not_begun(own):
    xid, first = floor_at(own.names[0]) + ':00', own.names[0]
    answers = own.client.ask('r0', 'start r0 ' + xid, 'put r0 %s 6b 31' % xid, 'end r0 ' + xid, 'rollback r0 ' + xid)
    asked = own.client.ask('l0', 'commit l0 ' + first, 'await l0 ' + first, 'open l0')
    return answers == ['-8', '-4', '-4', '-4'] and asked == ['refused 17', 'refused 17', 'open']


def a_transaction_of_a_slow_clock_is_aborted(own):
    tx = own.client.begin()
    tx.gtrid = '00' * 16
    try:
        tx.put(0, b'1', b'2')
    except Aborted:
        return True
    return False


def no_floor_passes_a_branch(own):
    def work(tx):
        tx.put(0, b'1', b'2')
        above = FORMAT % (int(tx.gtrid, 16) + 1)
        try:
            own.client.raise_floor(0, above)
            return above, False
        except Refused as error:
            return above, str(error).endswith('refused 9')
    above, is_busy = own.client.run(work)
    return is_busy and own.rise(0, above) and own.floors()['r0'] == above and own.followed()


def a_lower_floor_changes_nothing(own):
    before = own.floors()
    own.client.raise_floor(0, '0:00')
    return own.floors() == before


def what_is_no_floor_is_no_command(own):
    lines = ['floor r0', 'floor r0 1', 'floor r0 1:7', 'floor r0 1:75:61', 'floor r0 1:75 61', 'floor l0 1:75', 'hear 1', 'replace a0 1:75',
             'floor r1 1:75', 'floor r9 1:75']
    return own.client.ask('r0', *lines) == ['refused 7'] * 8 + ['refused 15'] * 2


def a_process_goes_on_from_its_floor(own):
    before = own.floors()
    for name in own.cluster.names:
        own.cluster.kill(name)
        own.client.forget(name)
    own.cluster.start()
    return own.floors() == before and own.outcome(own.names[0]) == 'forgotten' and len(own.commit(20)) == 20


def who_was_away_is_told_again(own):
    own.cluster.kill('a0')
    own.client.forget('a0')
    floor = floor_at(own.commit(1)[0])
    are_done = [own.rise(rm, floor) for rm in range(2)]
    own.cluster.start('a0')
    return all(are_done) and own.followed(AGAIN) and own.floors()['a0'] == floor


def all_rows_are_there(own):
    rows = {b'%d' % key: b'%d' % number for number in [*range(20), 0] for key in [number % 8]}
    return own.client.table(0) == own.client.table(1) == rows


def ends_of(own, name, *words):
    """How the program ends that is to make a blank record, and what it says."""
    command = [own.cluster.program, *words, *own.cluster.command(name)[1:]]
    try:
        run = subprocess.run(command, capture_output=True, text=True, timeout=SOON)
    except subprocess.TimeoutExpired:
        return None, ''
    return run.returncode, run.stdout + run.stderr


def what_cant_be_replaced_stays(own):
    before = own.sizes()
    asked = (('r0', '--replace-from', '1:75'), ('a0', '--replace-from', '1:75'), ('a0', '--replace-from', '1:7'), ('a0', '--replace'),
             ('a0', '--replace', '--replace-from', '1:75'), ('a9', '--replace-from', '1:75'))
    return all(ends_of(own, *words)[0] == 2 for words in asked) and own.sizes() == before


def is_back_in_part(own, name, others):
    """Whether transactions are committed with a node that was replaced, while others are away."""
    floor = own.floors()[name]
    until(lambda: '1:' + named(0) > floor)
    for other in others:
        own.cluster.kill(other)
        own.client.forget(other)
    names = own.commit(10)
    own.cluster.start(*others)
    return len(names) == 10


def a_lost_acceptor_is_replaced(own):
    own.cluster.kill('a1')
    own.client.forget('a1')
    own.cluster.lose('a1', endings=('rec',))
    # what stands beside its record says that it has had one
    is_missed = ends_of(own, 'a1')[0] == 2
    from_here = '1:' + named(500)
    said = [ends_of(own, 'a1', '--replace-from', from_here) for _ in range(2)]
    own.cluster.start('a1')
    # what it took no part in is asked of the others
    return (is_missed and [status for status, _words in said] == [0, 2] and from_here in said[0][1] and own.floors()['a1'] == from_here
            and own.outcome(own.commit(1)[0]) == 'committed' and is_back_in_part(own, 'a1', ['a0']))


TESTS = (nobody_has_a_floor_at_first, one_manager_raises_its_own_alone, all_follow_the_least_of_both, what_is_below_is_over,
         what_is_below_is_not_begun, a_transaction_of_a_slow_clock_is_aborted, no_floor_passes_a_branch, a_lower_floor_changes_nothing,
         what_is_no_floor_is_no_command, a_process_goes_on_from_its_floor, who_was_away_is_told_again, all_rows_are_there,
         what_cant_be_replaced_stays, a_lost_acceptor_is_replaced)


# ---- floors that follow the times of names

# for how many milliseconds names are kept, and how many they may be ahead
KEEP = 2000
AHEAD = 1000


def named(ahead):
    """The gtrid of a name whose time is so many milliseconds from now."""
    return '%012x' % (int(time.time() * 1000) + ahead) + '00' * 10


def floors_follow_the_clock(own):
    own.names = own.commit(own.count)
    own.full, total = own.sizes(), own.count
    end = time.monotonic() + 4 * KEEP / 1000
    while time.monotonic() < end:
        total += len(own.commit(5))

    def are_late():
        own.commit(5)
        floors, now = own.floors(), named(0)
        return all(floor and '1:' + named(-3 * KEEP)[:12] < floor < '1:' + now for floor in floors.values())
    # what is kept is of the last twice as long as names are, of more than four times that
    are_shorter = all(4 * own.sizes()[name] * own.count < 3 * size * total for name, size in own.full.items() if size > 9000)
    return until(are_late) and are_shorter


def an_old_outcome_is_forgotten(own):
    return own.outcome(own.names[0]) == 'forgotten' and own.outcome(own.commit(1)[0]) == 'committed'


def an_open_branch_holds_floors_back(own):
    other = pcommit_client.Cluster(own.cluster.file, patience=SOON)

    def work(tx):
        for rm in range(2):
            tx.put(rm, b'held', b'2')
        end = time.monotonic() + 2 * KEEP / 1000
        while time.monotonic() < end:
            own.commit(5, other)
        return tx, own.floors()['r0'] <= '1:' + tx.gtrid
    tx, is_held = own.client.run(work)
    other.close()
    return is_held and own.outcome(tx.name) == 'committed' and rises_above(own, tx.gtrid)


def rises_above(own, gtrid):
    """Whether all floors come to stand above a name while others are begun."""
    def is_so():
        own.commit(5)
        return min(floor or '' for floor in own.floors().values()) > '1:' + gtrid
    return until(is_so, 4 * KEEP / 1000 + SOON)


def one_that_is_late_at_a_manager_is_aborted(own):
    tx = own.client.begin()
    tx.put(0, b'late', b'2')
    other = pcommit_client.Cluster(own.cluster.file, patience=SOON)

    def is_above():
        own.commit(5, other, rms=(1,))
        return own.floors()['r1'] > '1:' + tx.gtrid
    is_late = until(is_above, 4 * KEEP / 1000 + SOON)
    other.close()
    try:
        tx.put(1, b'late', b'2')
    except Aborted as error:
        return is_late and str(error) == 'r1: -8'
    return False


def no_floor_is_raised_above_the_clock(own):
    return own.client.ask('r0', 'floor r0 1:%s' % named(60000), 'floor r0 2147483647:ff') == ['refused 19'] * 2


def a_manager_goes_on_after_a_restart(own):
    own.cluster.kill('r0')
    own.client.forget('r0')
    own.cluster.start('r0')
    return rises_above(own, own.commit(1)[0][2:34])


def a_name_of_another_time_is_refused(own):
    lines = ['start r0 1:%s:61' % named(120000), 'start r0 2:%s:61' % named(0), 'start r0 1:0102030405:61', 'start r0 1:%s:61' % named(0)]
    return own.client.ask('r0', *lines) == ['refused 19'] * 3 + ['0']


def a_lost_leader_is_replaced_by_the_clock(own):
    own.cluster.kill('l0')
    own.client.forget('l0')
    own.cluster.lose('l0')
    earliest, (status, _said), latest = named(AHEAD), ends_of(own, 'l0', '--replace'), named(AHEAD + 1)
    own.cluster.start('l0')
    floor = own.floors()['l0']
    return status == 0 and '1:' + earliest[:12] <= floor <= '1:' + latest and is_back_in_part(own, 'l0', ['l1'])


def info_says_what_is_kept(own):
    counts = {name: own.client.info(name) for name in own.cluster.names}
    return all(0 < count['kept'] < 100000 and count['memory'] > 1 << 20 and count['record'] > 0 for count in counts.values())


def a_manager_beside_a_database_waits(own):
    end = time.monotonic() + 3 * KEEP / 1000
    while time.monotonic() < end:
        own.commit(5)
    floors = own.floors()
    alone = floors.pop('r0')
    if not alone or set(floors.values()) != {None}:
        return False
    return own.rise(1, alone) and own.followed()


def it_begins_nothing_below_where_it_said_it_may_rise(own):
    begun = named(0)
    own.commit(5)
    before = own.client.ask('r1', 'start r1 1:%s:61' % begun)

    def is_below():
        own.commit(5)
        return own.client.info('r1')['rise'] > '1:' + begun
    # the branch that is there holds it back
    is_held = not until(is_below, 3 * KEEP / 1000)
    own.client.ask('r1', 'end r1 1:%s:61' % begun, 'rollback r1 1:%s:61' % begun)
    return before == ['0'] and is_held and until(is_below) and own.client.ask('r1', 'start r1 1:%s:62' % begun) == ['-8']


TIMED = (floors_follow_the_clock, an_old_outcome_is_forgotten, an_open_branch_holds_floors_back, one_that_is_late_at_a_manager_is_aborted,
         a_name_of_another_time_is_refused, no_floor_is_raised_above_the_clock, a_manager_goes_on_after_a_restart,
         info_says_what_is_kept, a_lost_leader_is_replaced_by_the_clock)
BESIDE = (a_manager_beside_a_database_waits, it_begins_nothing_below_where_it_said_it_may_rise)


def run(tests, program, count, **words):
    """Runs tests over a cluster; how many failed."""
    folder, failed = tempfile.mkdtemp(prefix='pcommit-floors-'), 0
    with Processes(program, folder, **words) as cluster:
        cluster.start()
        own = Floors(cluster, count)
        for test in tests:
            if not test(own):
                failed += 1
                print('floors: FAILED %s: floors %s, records %s' % (test.__name__.replace('_', ' '), own.floors(), own.sizes()))
        own.client.close()
    shutil.rmtree(folder)
    return failed


def main(program, count=300):
    begun, count = time.time(), int(count)
    failed = run(TESTS, program, count) + run(TIMED, program, count, names={'keep': KEEP, 'ahead': AHEAD})
    failed += run(BESIDE, program, count, names={'keep': KEEP, 'ahead': AHEAD}, beside=(1,))
    total = len(TESTS + TIMED + BESIDE)
    print('floors: %d passed, %d failed (%.0f s)' % (total - failed, failed, time.time() - begun))
    sys.exit(failed > 0)


if __name__ == '__main__':
    main(*sys.argv[1:])
