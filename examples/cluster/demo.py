#!/usr/bin/env python3
"""Shows a cluster of seven processes on this host: demo.py PROGRAM [FOLDER]. First a transaction over two managers, and that everything is
there after all were stopped and started again; then a leader that is killed between the votes and the outcome; then that what is over is
forgotten; and last an acceptor whose disk is lost, and which is replaced."""
import os
import shutil
import signal
import subprocess
import sys
import tempfile
import threading
import time

from pcommit_client import Cluster, Conflict, Forgotten

HERE = os.path.dirname(os.path.abspath(__file__))
NAMES = ('a0', 'a1', 'a2', 'l0', 'l1', 'r0', 'r1')
# for how many milliseconds names are kept here, and how many they may be ahead: in one-host.toml ten minutes and one
KEEP, AHEAD = 2000, 1000


def say(words=''):
    print(words, flush=True)


class Host:
    """The seven processes of one-host.toml, over a folder; `beside` has its managers speak for databases."""

    def __init__(self, program, folder, beside=False):
        self.program, self.folder, self.running = program, folder, {}
        self.file = os.path.join(folder, 'one-host.toml')
        with open(os.path.join(HERE, 'one-host.toml')) as example, open(self.file, 'w') as own:
            said = example.read().replace('keep = 600000', 'keep = %d' % KEEP).replace('ahead = 60000', 'ahead = %d' % AHEAD)
            own.write(said.replace('# beside = true', 'beside = true') if beside else said)
        subprocess.run([os.path.join(HERE, 'keys.sh'), folder], check=True, stdout=subprocess.DEVNULL)

    def start(self, name):
        with open(os.path.join(self.folder, name + '.log'), 'ab') as log:
            self.running[name] = subprocess.Popen([self.program, self.file, name, self.folder], stdout=log, stderr=log)

    def start_all(self):
        for name in NAMES:
            self.start(name)
        client = Cluster(self.file)
        for name in NAMES:
            for _ in range(200):
                if self.running[name].poll() is not None:
                    with open(os.path.join(self.folder, name + '.log')) as log:
                        raise SystemExit('%s ended: %s' % (name, log.read().strip()))
                try:
                    client.ask(name)
                    break
                except OSError:
                    time.sleep(0.02)
        client.close()

    def signal(self, name, number):
        self.running[name].send_signal(number)
        if number == signal.SIGKILL:
            self.running.pop(name).wait()

    def record(self, name):
        return os.path.join(self.folder, name + '.rec')

    def replace(self, name):
        """Makes a blank record of a node whose record is lost. What the program says."""
        words = [self.program, '--replace', self.file, name, self.folder]
        return subprocess.run(words, check=True, capture_output=True, text=True).stdout.strip()

    def stop(self):
        for name in list(self.running):
            self.signal(name, signal.SIGKILL)


def move(tx, amount):
    """Moves money from alice at r0 to bob at r1."""
    alice, bob = int(tx.get(0, b'alice')), int(tx.get(1, b'bob'))
    tx.put(0, b'alice', b'%d' % (alice - amount))
    tx.put(1, b'bob', b'%d' % (bob + amount))


def balances(cluster):
    return cluster.run(lambda tx: (int(tx.get(0, b'alice')), int(tx.get(1, b'bob'))))


def say_balances(cluster):
    say('   alice has %d at r0, bob has %d at r1' % balances(cluster))


def first(host):
    say('1. A transaction over two managers')
    host.start_all()
    say('   seven processes run: acceptors a0 a1 a2, leaders l0 l1, resource managers r0 r1')
    cluster = Cluster(host.file)
    say_balances(cluster)
    begun = time.monotonic()
    cluster.run(lambda tx: move(tx, 10))
    say('   10 go from alice to bob, in one transaction: committed after %.1f ms' % (1000 * (time.monotonic() - begun)))
    say_balances(cluster)
    cluster.close()
    host.stop()
    say('   all seven are killed, and started again over the same folder')
    host.start_all()
    cluster = Cluster(host.file)
    say_balances(cluster)
    cluster.close()
    say()


def wait_for(cluster, rm, tx, view):
    while cluster.ask('r%d' % rm, 'view r%d %s' % (rm, tx))[0] != view:
        time.sleep(0.005)


def second(host):
    say('2. The leader is killed between the votes and the outcome')
    cluster, watcher = Cluster(host.file), Cluster(host.file)
    tx = cluster.begin()
    move(tx, 5)
    # two of three acceptors stand still, so that the votes don't get through yet
    for name in ('a0', 'a1'):
        host.signal(name, signal.SIGSTOP)
    asking = threading.Thread(target=tx.commit)
    asking.start()
    for rm in (0, 1):
        wait_for(watcher, rm, tx.name, 'prepared')
    say('   5 more are to go from alice to bob; l0 is asked to commit')
    say('   r0 and r1 have voted prepared: from now on neither may decide by itself, and both keys are locked')
    host.signal('l0', signal.SIGKILL)
    killed = time.monotonic()
    try:
        with watcher.begin() as other:
            other.put(0, b'alice', b'0')
        say('   (the key was free already)')
    except Conflict:
        say('   l0 is killed. Another client that wants to write alice is refused: locked')
    for name in ('a0', 'a1'):
        host.signal(name, signal.SIGCONT)
    for rm in (0, 1):
        wait_for(watcher, rm, tx.name, 'committed')
    say('   l1 ends it: %.2f s after the kill r0 and r1 have committed, and the keys are free' % (time.monotonic() - killed))
    asking.join()
    say('   the client, whose connection to l0 broke, asked l1, and knows: %s' % tx.outcome)
    say_balances(watcher)
    say('   With two-phase commit both keys would stay locked until l0 is back. l0 is still gone')
    host.start('l0')
    cluster.close()
    watcher.close()
    say()


def go_on(cluster, seconds):
    """Transactions for a while, whose names' times floors follow; how many."""
    count, end = 0, time.monotonic() + seconds
    while time.monotonic() < end:
        cluster.run(lambda tx: move(tx, 1 if count % 2 else -1))
        count += 1
    return count


def third(host):
    say('3. What is over is forgotten')
    say('   so that nobody runs full, a transaction is kept for a while only: ten minutes by one-host.toml, two seconds here')
    cluster = Cluster(host.file)
    tx = cluster.run(lambda tx: move(tx, 2) or tx)
    say('   a transaction begins with its time: %s' % tx.name)
    say('   its outcome is known as long as it is kept: %s' % cluster.settle(tx.name))
    count = go_on(cluster, 2)
    size = os.path.getsize(host.record('r0'))
    say('   %d more transactions: the record of r0 has %d bytes, and of %d transactions something is kept'
        % (count, size, cluster.info('r0')['kept']))
    floor, end = cluster.info('a0').get('floor', ''), time.monotonic() + 30
    while floor < tx.name.split('/')[0] and time.monotonic() < end:
        count += go_on(cluster, 0.5)
        floor = cluster.info('a0').get('floor', '')
    say('   %d now: it has %d bytes, and keeps %d. The floor of a0 is %s: what stands below is over'
        % (count, os.path.getsize(host.record('r0')), cluster.info('r0')['kept'], floor))
    try:
        say('   (its outcome was known still: %s)' % cluster.settle(tx.name))
    except Forgotten as error:
        say('   a client that asks for that first one now is told so: %s' % error)
    cluster.close()
    say()


def fourth(host):
    say('4. The disk of an acceptor is lost, and it is replaced')
    cluster = Cluster(host.file)
    host.signal('a1', signal.SIGKILL)
    for ending in ('rec', 'cluster'):
        os.remove(os.path.join(host.folder, 'a1.' + ending))
    say('   a1 is killed, and its record is deleted: it has forgotten what it promised, and may not simply be started again')
    say('   pcommit_node --replace one-host.toml a1 DIR says:')
    said = host.replace('a1')
    say('   | ' + said)
    host.start('a1')
    floor = said.split(' from ')[1].split()[0]
    while '1:%012x' % int(time.time() * 1000) <= floor:
        go_on(cluster, 0.1)
    say('   until names have come so far, it took no part, and a0 and a2 decided alone')
    host.signal('a0', signal.SIGKILL)
    cluster.forget('a0')
    go_on(cluster, 0.2)
    say('   now a0 is killed too: a1 and a2 are a majority, and transactions go on')
    say_balances(cluster)
    host.start('a0')
    cluster.close()
    say()


def main(program, folder=None):
    mine = folder or tempfile.mkdtemp(prefix='pcommit-cluster-')
    os.makedirs(mine, exist_ok=True)
    host = Host(os.path.abspath(program), mine)
    try:
        for part in (first, second, third, fourth):
            part(host)
    finally:
        host.stop()
    say('The processes are stopped. What they were started with: examples/cluster/one-host.toml')
    if folder:
        say('Their records and logs are in %s: started again, they go on from there' % folder)
    else:
        shutil.rmtree(mine)


if __name__ == '__main__':
    main(*sys.argv[1:])
