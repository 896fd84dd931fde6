#!/usr/bin/env python3
"""The test of the test: records lose writes that they answer to be stored, and `killed` has to see it: lost_writes.py PROGRAM [SEED].
Of managers the outcomes of transactions are lost, of acceptors what they accepted."""
import collections
import random
import shutil
import sys
import tempfile
import time

from bank import Bank, first_tables
from killed import kill
from processes import Processes, preload

SEEN = ('answered committed', 'committed at one manager', 'is a chain', 'are a chain', 'has read', 'never was', 'the first sum')


def lose(program, seed, most):
    """How many faults of which kinds a short run shows whose records lose writes after `most` of them at most."""
    folder = tempfile.mkdtemp(prefix='pcommit-lost-writes-')
    with Processes(program, folder, tables=first_tables()) as cluster:
        cluster.env = {'LD_PRELOAD': preload(folder), 'PCOMMIT_LOSE': str(most), 'PCOMMIT_SEED': str(seed)}
        cluster.start()
        cluster.watch()
        bank = Bank(cluster, seed, clients=16)
        bank.start()
        killed = collections.Counter()
        kill(cluster, 8, random.Random(seed), killed)
        bank.stop()
        bank.settle(5)
        cluster.stop()
        bank.check()
    shutil.rmtree(folder)
    print('lost_writes: seed %d: %s; %d kills; %d faults seen' % (seed, bank.said(), sum(killed.values()), len(bank.faults)))
    seen = [fault for fault in bank.faults if any(words in fault for words in SEEN)]
    for fault in seen[:3]:
        print('lost_writes: seen: ' + fault)
    return len(seen)


def main(program, seed=1):
    begun = time.time()
    seen = lose(program, int(seed), 20)
    print('lost_writes: %d passed, %d failed (%.0f s)' % (seen > 0, seen == 0, time.time() - begun))
    sys.exit(seen == 0)


if __name__ == '__main__':
    main(*sys.argv[1:])
