#!/usr/bin/env python3
"""The bank over seven hosts: each node in a network namespace of its own, joined by links of the system, which are cut for seconds, and
lose, delay, reorder and repeat packets where the kernel can (netem), while nodes are killed: hosts.py PROGRAM [ROUNDS [SEED]]. Needs the
rights to make namespaces (it makes all of them within one of its own, which is gone when it ends), ip and tc; where it hasn't, that is
said, and nothing is run."""
import os
import random
import shutil
import subprocess
import sys
import tempfile
import time

from bank import finish, over
from processes import Processes

ROUGH = 'delay 3ms 3ms loss 2% duplicate 2% reorder 25% 50%'.split()


def system(*words):
    subprocess.run(words, check=True, stdout=subprocess.DEVNULL)


class Hosts(Processes):
    """Each node at a host, 10.77.0.1 and so on; clients come from the bridge that joins them."""

    def __init__(self, *args, **words):
        super().__init__(*args, **words)
        system('ip', 'link', 'set', 'lo', 'up')
        system('ip', 'link', 'add', 'bridge0', 'type', 'bridge')
        system('ip', 'address', 'add', '10.77.0.254/24', 'dev', 'bridge0')
        system('ip', 'link', 'set', 'bridge0', 'up')
        for number, name in enumerate(self.names, 1):
            host = '10.77.0.%d' % number
            self.nodes[name], self.clients[name] = (host, 7100), (host, 7200)
            system('ip', 'netns', 'add', name)
            system('ip', 'link', 'add', 'to_' + name, 'type', 'veth', 'peer', 'name', 'eth0', 'netns', name)
            system('ip', 'link', 'set', 'to_' + name, 'master', 'bridge0', 'up')
            for words in (('address', 'add', host + '/24', 'dev', 'eth0'), ('link', 'set', 'eth0', 'up'), ('link', 'set', 'lo', 'up')):
                system('ip', '-n', name, *words)
            words = ['tc', '-n', name, 'qdisc', 'add', 'dev', 'eth0', 'root', 'netem'] + ROUGH
            self.is_rough = not subprocess.run(words, stderr=subprocess.DEVNULL).returncode
        self.file = self.write_files()

    def command(self, name):
        return ['ip', 'netns', 'exec', name] + super().command(name)

    def cut(self, name, is_cut):
        system('ip', 'link', 'set', 'to_' + name, 'down' if is_cut else 'up')


def main(program, rounds=10, seed=1):
    if not os.environ.get('PCOMMIT_HOSTS'):
        # within namespaces of its own, of networks and of mounts
        words = ['unshare', '-n', '-m', sys.executable, os.path.abspath(__file__), os.path.abspath(program), str(rounds), str(seed)]
        able = all(shutil.which(name) for name in ('ip', 'tc', 'unshare')) and not subprocess.run(
            ['unshare', '-n', '-m', 'sh', '-c', 'mount -t tmpfs none /run && ip link add x type veth && ip netns add y'],
            stdout=subprocess.DEVNULL, stderr=subprocess.DEVNULL).returncode
        if not able:
            print('hosts: left out: no rights for network namespaces, or no ip and tc')
            print('hosts: 0 passed, 0 failed')
            return
        os.execvpe(words[0], words, dict(os.environ, PCOMMIT_HOSTS='1'))
    system('mount', '-t', 'tmpfs', 'none', '/run')
    rounds, chance, cuts, kills = int(rounds), random.Random(int(seed)), [], []

    def drive(cluster, bank, _others):
        for _ in range(rounds):
            time.sleep(1)
            victim = chance.choice(cluster.names)
            cluster.cut(victim, True)
            cuts.append(victim)
            time.sleep(chance.uniform(0.5, 4))
            cluster.cut(victim, False)
            time.sleep(1)
            victim = chance.choice(cluster.names)
            kills.append(cluster.kill(victim))
            time.sleep(chance.uniform(0, 0.5))
            cluster.start(victim)
        bank.until(10 * rounds, 1)
        rough = 'rough' if cluster.is_rough else 'not rough, which this kernel can not'
        return '%d hosts were cut off, %d nodes killed; the network is %s' % (len(cuts), sum(kills), rough)

    bank = over('hosts', program, None, drive, seed=int(seed), makes=Hosts)
    finish('hosts', [('nothing is wrong', not bank.faults), ('enough was moved', bank.count('committed', 'move') >= 10 * rounds),
                     ('enough was cut and killed', len(cuts) >= rounds and sum(kills) >= rounds)])


if __name__ == '__main__':
    main(*sys.argv[1:])
