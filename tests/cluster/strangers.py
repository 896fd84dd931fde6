#!/usr/bin/env python3
"""Strangers send 100,000 datagrams that no node takes, and connect as clients that aren't any; the bank goes on, alone at nine tenths of
its rate, and no record holds anything of theirs: strangers.py PROGRAM [DATAGRAMS [SEED]]. RATE in the environment says how many they send
a second, where it isn't to be 3,000. With `full` in place of DATAGRAMS three million go as fast as a process can send them: the bank goes
on as far as they let it, and all else is the same. The datagrams: bytes of chance; letters without a signature; of a cluster with another
key; of another cluster with the same key; of this one, to another node than the one they were made for; of this one with a bit changed; of
this one, cut."""
import collections
import math
import multiprocessing
import os
import random
import shutil
import socket
import sys
import tempfile
import time

from bank import finish, first_tables, over
from forwarder import Forwarder
from pcommit_client import Cluster, Connection
from processes import ZEROS, Processes

MARK = b'stranger'
# what is sent: so many, so many a second, for so many seconds and then as long not, and the part of its rate that the bank keeps
Flood = collections.namedtuple('Flood', 'count rate span least')
# alone, as in the soak, the bank keeps nine tenths of its rate; beside other tests, which take processors too, it has to go on
LEAST_ALONE, LEAST_BESIDE, ALONE = 0.9, 0.3, 1000000
EACH_SECOND = 3000
# with and without them by turns so short that what else the machine does falls on both
SPAN = 0.3
# at full speed nodes lose each other's letters too, and the turns are so long that those that are asked for again fall into the same one
FULL = Flood(3000000, math.inf, 2.0, 0.05)


def flood_of(count):
    """What is sent, by a number of datagrams or the word `full`."""
    if count == 'full':
        return FULL
    return Flood(int(count), float(os.environ.get('RATE', EACH_SECOND)), SPAN, LEAST_ALONE if int(count) >= ALONE else LEAST_BESIDE)


def capture(program, **words):
    """The datagrams of some transactions of a cluster, (sender, receiver, bytes), whose names all begin with a mark."""
    folder = tempfile.mkdtemp(prefix='pcommit-capture-')
    with Processes(program, folder, **words) as cluster:
        forwarder = Forwarder(cluster, 1, keeps=5000)
        try:
            cluster.start()
            client = Cluster(cluster.file)
            for number in range(60):
                tx = client.begin()
                tx.gtrid = (MARK + b'%08d' % number).hex()
                with tx:
                    tx.put(0, b'%d' % number, b'1')
                    tx.put(1, b'%d' % number, b'1')
            return forwarder.recorded()
        finally:
            forwarder.stop()
            shutil.rmtree(folder, ignore_errors=True)


def changed(data, chance):
    at = chance.randrange(len(data))
    return data[:at] + bytes([data[at] ^ 1 << chance.randrange(8)]) + data[at + 1:]


def kinds_of(program, names):
    """For each kind of datagram, (receiver, bytes) of some."""
    chance = random.Random(5)
    mine = capture(program, tables=first_tables())
    other_tables = first_tables()
    other_tables[0]['ff'] = '00'
    return {
        'of chance': [(chance.choice(names), chance.randbytes(chance.randrange(0, 1500))) for _ in range(2000)],
        'not signed': [(to, data) for _who, to, data in capture(program, tables=first_tables(), key=None)],
        'with a wrong key': [(to, data) for _who, to, data in capture(program, tables=first_tables(), key='ab' * 32)],
        'of another cluster': [(to, data) for _who, to, data in capture(program, tables=other_tables)],
        'to another node': [(name, data) for _who, to, data in mine for name in names if name != to],
        'changed': [(to, changed(data, chance)) for _who, to, data in mine],
        'cut': [(to, data[:chance.randrange(len(data))]) for _who, to, data in mine],
    }


def send(places, kinds, flood, seed, gate, told):
    """Sends datagrams of all kinds by turns, while the gate is open."""
    chance, end, sent = random.Random(seed), socket.socket(socket.AF_INET, socket.SOCK_DGRAM), 0
    kinds, begun, shut = list(kinds.values()), time.monotonic(), 0.0
    while sent < flood.count:
        if not gate.is_set():
            now = time.monotonic()
            gate.wait()
            shut += time.monotonic() - now
        for _ in range(20):
            name, data = chance.choice(kinds[sent % len(kinds)])
            end.sendto(data, places[name])
            sent += 1
        told.value = sent
        ahead = sent / flood.rate - (time.monotonic() - begun - shut)
        if ahead > 0:
            time.sleep(ahead)


def talk(cluster, stop, gate, told):
    """Clients that aren't any, over and over: without a proof, with a replayed one, slow ones, and one that never reads."""
    client = Cluster(cluster.file)
    held = []
    for name in ('r0', 'l0', 'a0'):
        slow = socket.create_connection(client.addresses[name])
        held.append(slow)
    deaf = Connection('r0', client.addresses['r0'], client.proof('r0'), 5)
    deaf.socket.setblocking(False)
    while not stop.is_set():
        gate.wait(1)
        for name in ('r0', 'l0'):
            told.value += refused_client(client, name, lambda _challenge: 'table %s' % name)
            told.value += refused_client(client, name, lambda _challenge: 'proof ' + '00' * 32)
            old = client.proof(name)(bytes(16))
            told.value += refused_client(client, name, lambda _challenge: 'proof ' + old)
        for slow in held:
            try:
                slow.send(b'p')
            except OSError:
                held.remove(slow)
                told.value += 1
        try:
            deaf.socket.send(b'table r0\n' * 200)
        except OSError:
            pass
        stop.wait(0.3)


def refused_client(client, name, line):
    """Whether a node closes a connection after a line that is no proof of its challenge."""
    try:
        with socket.create_connection(client.addresses[name], timeout=5) as end:
            challenge = end.recv(1000).split()
            end.sendall((line(challenge[-1]) + '\n').encode())
            while True:
                data = end.recv(1000)
                if not data:
                    return 1
                if not data.startswith(b'refused'):
                    return 0
    except ConnectionError:
        return 1
    except OSError:
        return 0


def dropped(cluster):
    """How many datagrams the nodes have dropped for their signature, by `info`."""
    client = Cluster(cluster.file, patience=20)
    return sum(client.info(name)['dropped'] for name in cluster.names)


def length(spans):
    return sum(end - begin for begin, end in spans)


def rate_of(bank, spans):
    """Committed transactions a second in all of some spans."""
    return sum(bank.rate(begin, end) * (end - begin) for begin, end in spans) / length(spans)


def main(program, count='100000', seed=1):
    flood, seed, found = flood_of(count), int(seed), {}

    def begin(cluster, _folder):
        found['kinds'] = kinds_of(program, cluster.names)

    def drive(cluster, bank, _others):
        gate, stop = multiprocessing.Event(), multiprocessing.Event()
        sent, told = multiprocessing.Value('l', 0), multiprocessing.Value('l', 0)
        args = (cluster.nodes, found['kinds'], flood, seed, gate, sent)
        senders = [multiprocessing.Process(target=send, args=args, daemon=True),
                   multiprocessing.Process(target=talk, args=(cluster, stop, gate, told), daemon=True)]
        for one in senders:
            one.start()
        time.sleep(1)
        spans = {True: [], False: []}
        while senders[0].is_alive():
            for is_open in (False, True):
                (gate.set if is_open else gate.clear)()
                now = time.time()
                senders[0].join(flood.span)
                spans[is_open].append((now, time.time()))
        stop.set()
        senders[1].join()
        marks = sum(MARK in cluster.record(name) for name in cluster.names)
        found.update(spans=spans, sent=sent.value, told=told.value, dropped=dropped(cluster), marks=marks)
        return '%d datagrams sent, %.0f a second, %d dropped; %d connections refused' % (
            found['sent'], found['sent'] / length(spans[True]), found['dropped'], found['told'])

    bank = over('strangers', program, begin, drive, seed=seed)
    rates = {is_open: rate_of(bank, spans) for is_open, spans in found['spans'].items()}
    # how far two halves of the calm spans differ, which nothing but chance tells apart
    halves = [rate_of(bank, found['spans'][False][half::2]) for half in (0, 1)]
    print('strangers: by chance alone the rates of two halves without them were %.0f and %.0f' % tuple(halves))
    print('strangers: %.0f transactions a second without them, %.0f with them (%.0f%%)' % (
        rates[False], rates[True], 100 * rates[True] / max(rates[False], 1e-9)))
    # at full speed sockets are full, and the kernel drops what nodes have no time for
    least = 0.9 if flood.rate < math.inf else 0.1
    finish('strangers', [('nothing is wrong', not bank.faults), ('all were sent', found['sent'] >= flood.count),
                         ('they were dropped', found['dropped'] >= least * flood.count), ('clients were refused', found['told'] >= 20),
                         ('the rate stays', rates[True] >= flood.least * rates[False]),
                         ('no record has anything of theirs', not found['marks'])])


if __name__ == '__main__':
    main(*sys.argv[1:])
