#!/usr/bin/env python3
"""The bank while acceptors and leaders are lost, disk and all, and replaced by the procedure of docs/DEPLOY.md, one after another:
replaced.py PROGRAM [TIMES [SEED]]. After each replacement an acceptor is killed and stays away until it is its turn to be replaced, so that
transactions go on only if the one that was replaced takes part."""
import random
import subprocess
import sys
import time

from bank import finish, over
from floors import SOON, named
from processes import until

from pcommit_client import Cluster

# how many milliseconds names may be ahead of the clock: so long a node that was replaced takes no part
AHEAD = 1000
# for how many seconds nothing from before was seen, when nothing comes of it any more
QUIET = 3.0


def replace(cluster, client, name):
    """Has a blank node stand in for one that was killed, whose disk is emptied. Whether that was done, and it takes part then."""
    cluster.lose(name)
    words = [cluster.program, '--replace', *cluster.command(name)[1:]]
    if subprocess.run(words, stdout=subprocess.DEVNULL, timeout=60).returncode:
        return False
    client.forget(name)
    cluster.start(name)
    floor = client.info(name)['floor']
    return until(lambda: '1:' + named(0) > floor)


def wait_for_names_before(bank):
    """Waits until nothing is open whose name is from before: only then may a second one be lost, since both know nothing of it."""
    before, end = int(time.time() * 1000), time.monotonic() + 60
    quiet = time.monotonic() + QUIET
    while time.monotonic() < min(quiet, end):
        if any(time_of(name) < before for _rm, name in bank.open_votes()):
            quiet = time.monotonic() + QUIET
        time.sleep(0.05)


def time_of(name):
    """The time of a transaction, as a record spells that: behind four bytes of a format and one of a length."""
    return int.from_bytes(name[5:11], 'big')


def main(program, times=2, seed=1):
    times, chance, found = int(times), random.Random(int(seed)), {'replaced': 0, 'went on': 0, 'leaders': 0}

    def drive(cluster, bank, _others):
        client, lost = Cluster(cluster.file, patience=SOON), None
        for number in range(times):
            lost = lost or chance.choice(('a0', 'a1', 'a2'))
            cluster.kill(lost)
            found['replaced'] += replace(cluster, client, lost)
            wait_for_names_before(bank)
            lost = chance.choice([name for name in ('a0', 'a1', 'a2') if name != lost])
            cluster.kill(lost)
            before = bank.counts['move'].value
            found['went on'] += until(lambda: bank.counts['move'].value >= before + 20, 30)
            if number % 2 == 0:
                leader = chance.choice(('l0', 'l1'))
                cluster.kill(leader)
                found['leaders'] += replace(cluster, client, leader)
                wait_for_names_before(bank)
            bank.open_votes()
        replace(cluster, client, lost)
        bank.until(20 * times, 1)
        return '%d acceptors and %d leaders replaced' % (found['replaced'], found['leaders'])
    begun = time.time()
    bank = over('replaced', program, None, drive, seed=int(seed), names={'ahead': AHEAD})
    print('replaced: it took %.0f s' % (time.time() - begun))
    finish('replaced', [('nothing is wrong', not bank.faults), ('each was replaced', found['replaced'] == times),
                        ('leaders were replaced', found['leaders'] == (times + 1) // 2),
                        ('transactions went on each time', found['went on'] == times)])


if __name__ == '__main__':
    main(*sys.argv[1:])
