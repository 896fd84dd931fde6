#!/usr/bin/env python3
"""The bank while any process is killed (SIGKILL) and started again, and writes of records are short or refused beside it: killed.py
PROGRAM [KILLS [SEED]]. No answered commit is lost, nobody is committed beside aborted, the sum holds."""
import collections
import random
import sys
import time

from bank import finish, over
from processes import preload

# after so many milliseconds at most a write of each process goes wrong
WRONG = '30000'


def kill(cluster, kills, chance, killed, between=lambda: None):
    """Kills nodes at random, one or two of different kinds at a time, and starts them again. Whatever is `between` two is called."""
    done = 0
    while done < kills:
        victims = chance.sample(cluster.names, 1)
        if chance.random() < 0.25:
            victims += chance.sample([name for name in cluster.names if name[0] != victims[0][0]], 1)
        for name in victims:
            if cluster.kill(name):
                killed[name[0]] += 1
                done += 1
        time.sleep(chance.random() * 0.3)
        cluster.start(*victims)
        time.sleep(chance.random() * 0.9)
        between()


def main(program, kills=40, seed=1):
    kills, chance, killed = int(kills), random.Random(int(seed)), collections.Counter()

    def begin(cluster, folder):
        cluster.env = {'LD_PRELOAD': preload(folder), 'PCOMMIT_WRONG': WRONG, 'PCOMMIT_SEED': str(seed)}

    def drive(cluster, bank, _others):
        time.sleep(1)
        kill(cluster, kills, chance, killed, bank.open_votes)
        time.sleep(1)
        bank.until(10 * kills, 3)
        return '%d kills: %d of acceptors, %d of leaders, %d of managers' % (
            sum(killed.values()), killed['a'], killed['l'], killed['r'])

    # one in two seeds is of a bundled cluster, in `network` the others
    bank = over('killed', program, begin, drive, seed=int(seed), bundled=int(seed) % 2 == 0)
    finish('killed', [('nothing is wrong', not bank.faults), ('enough was killed', sum(killed.values()) >= kills),
                      ('each kind was killed', min(killed[kind] for kind in 'alr') >= kills // 16),
                      ('enough was moved', bank.count('committed', 'move') >= 10 * kills),
                      ('sums were read', bank.count('committed', 'sum') >= 3),
                      ('writes went wrong', bank.downs > 0)])


if __name__ == '__main__':
    main(*sys.argv[1:])
