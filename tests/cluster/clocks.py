#!/usr/bin/env python3
"""Clusters with timed names whose hosts' clocks differ by an hour, and one whose clock jumps back by an hour: nothing goes wrong, and some
things are kept for longer: clocks.py PROGRAM."""
import os
import shutil
import sys
import tempfile
import time

from floors import KEEP, Floors, named
from processes import Processes, preload, until

from pcommit_client import Refused

HOUR = 3600


class Shifted(Processes):
    """A cluster whose nodes have clocks that are off by so many seconds."""

    def __init__(self, program, folder, shifts, **words):
        self.folder = folder
        for name, seconds in shifts.items():
            self.shift(name, seconds)
        super().__init__(program, folder, env={'LD_PRELOAD': preload(folder, 'shift_clock')}, **words)

    def shift(self, name, seconds):
        path = os.path.join(self.folder, name + '.clock')
        with open(path + '.new', 'w') as clock:
            clock.write('%d' % seconds)
        os.rename(path + '.new', path)

    def spawn(self, name):
        self.env['PCOMMIT_CLOCK'] = os.path.join(self.folder, name + '.clock')
        super().spawn(name)


def go_on(own, seconds):
    """Transactions over both managers, for a while; how many."""
    end, count = time.monotonic() + seconds, 0
    while time.monotonic() < end:
        count += len(own.commit(5))
    return count


def floors_follow_the_clock_that_is_behind(own):
    is_behind = go_on(own, 3 * KEEP / 1000) > 0
    floors = {name: floor or '' for name, floor in own.floors().items()}
    late = '1:' + named(-HOUR * 1000)
    # what a manager whose clock is ahead forgets it tells by the latest name
    return is_behind and late < floors['r0'] < '1:' + named(0) and all(floors[name] < late for name in floors if name != 'r0')


def they_catch_up_once_it_is_right(own):
    own.cluster.shift('r1', 0)

    def is_so():
        own.commit(5)
        return min(floor or '' for floor in own.floors().values()) > '1:' + named(-4 * KEEP)
    return until(is_so)


def floors_stay_where_a_clock_jumps_back(own):
    before = own.floors()
    own.cluster.shift('r0', -HOUR)
    go_on(own, 3 * KEEP / 1000)
    after = own.floors()
    return (all(before[name] <= after[name] for name in before) and after['r0'] < '1:' + named(-2 * KEEP)
            and own.outcome(own.commit(1)[0]) == 'committed')


def a_restart_changes_nothing_of_that(own):
    before = own.floors()
    own.cluster.kill('r0')
    own.client.forget('r0')
    own.cluster.start('r0')
    return own.floors()['r0'] == before['r0'] and go_on(own, KEEP / 1000) > 0 and own.floors()['r0'] == before['r0']


def rows_are_right(own):
    own.commit(20)
    rows = {b'%d' % key: b'%d' % number for number in range(20) for key in [number % 8]}
    return until(lambda: own.client.table(0) == own.client.table(1) == rows)


def one_that_is_far_behind_begins_nothing(own):
    try:
        own.commit(1)
        return False
    except Refused as error:
        return 'does this clock agree' in str(error)


def it_begins_again_once_it_is_right(own):
    own.cluster.shift('r1', 0)
    return len(own.commit(5)) == 5


APART = (floors_follow_the_clock_that_is_behind, they_catch_up_once_it_is_right, floors_stay_where_a_clock_jumps_back,
         a_restart_changes_nothing_of_that, rows_are_right)
FAR = (one_that_is_far_behind_begins_nothing, it_begins_again_once_it_is_right)


def run(tests, program, shifts, names):
    """Runs tests over a cluster; how many failed."""
    folder, failed = tempfile.mkdtemp(prefix='pcommit-clocks-'), 0
    with Shifted(program, folder, shifts, names=names) as cluster:
        cluster.start()
        own = Floors(cluster, 0)
        for test in tests:
            if not test(own):
                failed += 1
                print('clocks: FAILED %s: floors %s' % (test.__name__.replace('_', ' '), own.floors()))
        own.client.close()
    shutil.rmtree(folder)
    return failed


def main(program):
    begun = time.time()
    failed = run(APART, program, {'r0': HOUR, 'r1': -HOUR, 'a0': -HOUR, 'l1': HOUR}, {'keep': KEEP, 'ahead': 3 * HOUR * 1000})
    failed += run(FAR, program, {'r1': -HOUR}, {'keep': KEEP})
    total = len(APART + FAR)
    print('clocks: %d passed, %d failed (%.0f s)' % (total - failed, failed, time.time() - begun))
    sys.exit(failed > 0)


if __name__ == '__main__':
    main(*sys.argv[1:])
