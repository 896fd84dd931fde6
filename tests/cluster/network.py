#!/usr/bin/env python3
"""The bank through a forwarder that loses, delays, reorders and repeats datagrams; with one side of the nodes cut from the other for
seconds; and with the first leader cut off, where the other ends what is prepared within two seconds: network.py PROGRAM [ROUNDS [SEED]]."""
import random
import sys
import time

from bank import finish, over
from forwarder import QUIET, ROUGH, Forwarder

SOON = 2.0


def ends_what_is_prepared(cluster, forwarder, bank):
    """Cuts the first leader off. How long until what was prepared by then has its outcome, and how many votes that were."""
    until = time.monotonic() + 5
    while not bank.open_votes() and time.monotonic() < until:
        time.sleep(0.001)
    forwarder.cut(['l0'], [name for name in cluster.names if name != 'l0'])
    begun, waiting = time.monotonic(), set(bank.open_votes())
    count = len(waiting)
    while waiting and time.monotonic() - begun < 30:
        time.sleep(0.01)
        waiting &= bank.open_votes()
    took = time.monotonic() - begun
    time.sleep(0.5)
    forwarder.heal()
    return took, count


def be_rough(forwarder, least=50):
    """A rough network for two seconds, or until it has lost something where a busy machine sends little."""
    before, begun = forwarder.rates(ROUGH)['lost'], time.monotonic()
    time.sleep(2)
    while forwarder.counts()['lost'] < before + least and time.monotonic() < begun + 15:
        time.sleep(0.2)
    forwarder.rates(QUIET)


def main(program, rounds=6, seed=1):
    rounds, chance, waits, found = int(rounds), random.Random(int(seed)), [], {}

    def begin(cluster, _folder):
        return Forwarder(cluster, int(seed))

    def drive(cluster, bank, forwarder):
        time.sleep(1)
        for _ in range(rounds):
            be_rough(forwarder)
            side = chance.sample(cluster.names, chance.randrange(1, len(cluster.names)))
            forwarder.cut(side, [name for name in cluster.names if name not in side])
            time.sleep(chance.uniform(0.5, 2))
            forwarder.heal()
            time.sleep(1)
            waits.append(ends_what_is_prepared(cluster, forwarder, bank))
            time.sleep(1)
        bank.until(50 * rounds, 1)
        found.update(forwarder.counts())
        told = ', '.join('%d %s' % (count, word) for word, count in found.items())
        late = sorted(took for took, _count in waits)
        return 'datagrams: %s; %d cuts of sides, %d of the first leader: %d votes open, the last ended after %.2f s (median %.2f s)' % (
            told, rounds, rounds, sum(count for _took, count in waits), late[-1], late[len(late) // 2])

    bank = over('network', program, begin, drive, seed=int(seed), bundled=int(seed) % 2 == 1)
    least = 50 * rounds
    finish('network', [('nothing is wrong', not bank.faults), ('enough was moved', bank.count('committed', 'move') >= 50 * rounds),
                       ('enough was done to datagrams', min(found[word] for word in ('lost', 'repeated', 'delayed', 'cut')) >= least),
                       ('votes were open when the leader was cut off', sum(count for _took, count in waits) >= rounds),
                       ('what is prepared ends soon', sum(took <= SOON for took, _count in waits) >= 0.99 * rounds)])


if __name__ == '__main__':
    main(*sys.argv[1:])
