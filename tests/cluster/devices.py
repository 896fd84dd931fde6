#!/usr/bin/env python3
"""Devices that fail, and what a node says then and how it ends: devices.py PROGRAM."""
import fcntl
import os
import resource
import shutil
import signal
import socket
import subprocess
import sys
import tempfile
import time

from bank import frames
from processes import Processes, preload
from pcommit_client import Aborted, Cluster, Unknown


def run(cluster, name, records=None, seconds=20, limit=None):
    """The status of a node that is started and ends by itself, and what it said. None where it goes on."""
    def limited():
        signal.signal(signal.SIGXFSZ, signal.SIG_IGN)
        if limit:
            resource.setrlimit(resource.RLIMIT_FSIZE, (limit, limit))
    words = cluster.command(name)
    words[3] = records or words[3]
    try:
        done = subprocess.run(words, stdin=subprocess.DEVNULL, capture_output=True, timeout=seconds, preexec_fn=limited,
                              env=dict(os.environ, **cluster.env))
    except subprocess.TimeoutExpired:
        return None, ''
    return done.returncode, (done.stdout + done.stderr).decode(errors='replace')


def refused(told, number, status=3):
    """Whether a node ended with a status and said why, in one line, with the number of the refusal."""
    lines = told[1].strip().split('\n')
    return told[0] == status and (number is None or 'refused %d' % number in lines[-1]) and len(lines[-1]) > 20


class Tests:
    def __init__(self, program, folder):
        self.program, self.folder, self.told = program, folder, ''
        self.serial = 0

    def cluster(self, **words):
        self.serial += 1
        return Processes(self.program, os.path.join(self.folder, str(self.serial)), **words)

    def ends(self, cluster, name, number, status=3, **words):
        self.told = run(cluster, name, **words)
        return refused(self.told, number, status)

    def the_folder_is_missing(self):
        with self.cluster() as cluster:
            return self.ends(cluster, 'r0', 16, records=os.path.join(cluster.folder, 'no such folder'))

    def the_folder_is_a_file(self):
        with self.cluster() as cluster:
            return self.ends(cluster, 'r0', 16, records=cluster.file)

    def the_folder_can_not_be_written(self):
        with self.cluster() as cluster:
            return self.ends(cluster, 'r0', 16, records='/proc')

    def the_record_is_damaged(self):
        with self.cluster() as cluster:
            for name, data in (('r0', b'no record'), ('a0', bytes(4)), ('l0', b'\0\0\0\5hello')):
                with open(os.path.join(cluster.records, name + '.rec'), 'wb') as record:
                    record.write(data)
                if not self.ends(cluster, name, 4):
                    return False
                if cluster.record(name) != data:
                    return False
            return True

    def the_record_is_open_elsewhere(self):
        with self.cluster() as cluster:
            with open(os.path.join(cluster.records, 'r0.rec'), 'ab') as record:
                fcntl.flock(record, fcntl.LOCK_EX)
                return self.ends(cluster, 'r0', 16)

    def a_second_process_of_a_node(self):
        with self.cluster() as cluster:
            cluster.start('a0')
            return self.ends(cluster, 'a0', 16)

    def the_nodes_port_is_taken(self):
        with self.cluster() as cluster, socket.socket(socket.AF_INET, socket.SOCK_DGRAM) as other:
            other.bind(cluster.nodes['l0'])
            return self.ends(cluster, 'l0', 12)

    def the_clients_port_is_taken(self):
        with self.cluster() as cluster, socket.socket() as other:
            other.bind(cluster.clients['l0'])
            other.listen()
            return self.ends(cluster, 'l0', 12)

    def the_address_is_of_another_host(self):
        with self.cluster() as cluster:
            cluster.nodes['l0'] = '192.0.2.1', 7110
            cluster.write_files()
            return self.ends(cluster, 'l0', 12)

    def the_folder_is_another_clusters(self):
        with self.cluster() as cluster, self.cluster(tables=({'6b': '30'}, {})) as other:
            cluster.start()
            cluster.stop()
            return all(self.ends(other, name, None, status=2, records=cluster.records) for name in ('a0', 'l0', 'r0'))

    def the_folder_is_of_fewer_acceptors(self):
        with self.cluster(acceptors=3) as cluster, self.cluster(acceptors=5) as other:
            cluster.start()
            cluster.stop()
            return self.ends(other, 'a0', None, status=2, records=cluster.records)

    def other_addresses_are_the_same_cluster(self):
        with self.cluster() as cluster, self.cluster() as other:
            cluster.start()
            Cluster(cluster.file).run(lambda tx: tx.put(0, b'a', b'1'))
            cluster.stop()
            other.records = cluster.records
            other.start()
            return Cluster(other.file).run(lambda tx: tx.get(0, b'a')) == b'1'

    def a_record_of_version_1(self):
        """It is taken up with the file of a cluster that it has never seen, and written anew; what it had voted comes to an end."""
        with self.cluster() as cluster:
            with open(os.path.join(cluster.records, 'r0.rec'), 'wb') as record:
                record.write(bytes.fromhex('0000001301040000000101740100016101016b01000131'))
            cluster.start()
            self.told = Cluster(cluster.file, patience=20).ask('r0', 'await r0 1:74/0=61')
            versions = {body[0] for body in frames(cluster.record('r0'))}
            return self.told[0] in ('committed', 'aborted') and versions == {2}

    def the_disk_is_full(self):
        """Each node that goes down says so and ends; with room again it goes on, with all that was answered."""
        with self.cluster() as cluster:
            cluster.start(*[name for name in cluster.names if name != 'r0'])
            words = cluster.command('r0')

            def limited():
                signal.signal(signal.SIGXFSZ, signal.SIG_IGN)
                resource.setrlimit(resource.RLIMIT_FSIZE, (4096, 4096))
            with open(os.path.join(cluster.folder, 'r0.log'), 'wb') as log:
                cluster.running['r0'] = subprocess.Popen(words, stdout=log, stderr=log, preexec_fn=limited)
            cluster.until_open('r0')
            client, done = Cluster(cluster.file, patience=1, most=2), 0
            try:
                for done in range(1000):
                    with client.begin() as tx:
                        tx.put(0, b'%d' % done, b'1' * 100)
            except (Aborted, Unknown):
                pass
            self.told = cluster.running['r0'].wait(10), cluster.log('r0')
            is_so = refused(self.told, 5) and 0 < done < 100
            cluster.kill('r0')
            cluster.start('r0')
            return is_so and client.run(lambda tx: all(tx.get(0, b'%d' % n) == b'1' * 100 for n in range(max(0, done - 60), done)))

    def a_small_disk_is_full(self):
        """The same of a disk that has no room, where this user may make one."""
        with self.cluster() as cluster:
            os.makedirs(cluster.records, exist_ok=True)
            mount = ['mount', '-t', 'tmpfs', '-o', 'size=64k', 'tmpfs', cluster.records]
            if subprocess.run(mount, stderr=subprocess.DEVNULL).returncode:
                print('devices: no rights to make a small disk: left out')
                return True
            try:
                cluster.start()
                client, done = Cluster(cluster.file, patience=1, most=2), 0
                try:
                    for done in range(3000):
                        with client.begin() as tx:
                            tx.put(0, b'%d' % (done % 7), b'1' * 100)
                except (Aborted, Unknown):
                    pass
                ended = [name for name in cluster.names if cluster.running[name].poll() is not None]
                said = [cluster.log(name).strip().split('\n')[-1] for name in ended]
                self.told = [cluster.running[name].poll() for name in ended], said
                return bool(ended) and all(cluster.running[name].poll() == 3 for name in ended) and all('5' in one for one in said)
            finally:
                cluster.stop()
                subprocess.run(['umount', '-l', cluster.records])

    def a_sync_is_refused(self):
        with self.cluster() as cluster:
            cluster.start()
            cluster.kill('r0')
            cluster.env = {'LD_PRELOAD': preload(cluster.folder), 'PCOMMIT_SYNC': '3'}
            cluster.start('r0')
            client = Cluster(cluster.file, patience=1, most=2)
            for _ in range(30):
                try:
                    client.run(lambda tx: tx.put(0, b'a', b'1'), attempts=1)
                except (Aborted, Unknown):
                    break
            self.told = cluster.running['r0'].wait(10), cluster.log('r0')
            return refused(self.told, 5)


    def the_clock_is_set_again_and_again(self):
        """Only delays are measured, by a clock that nobody sets: what a killed leader left is ended as soon as ever."""
        with self.cluster() as cluster:
            cluster.env = {'LD_PRELOAD': preload(cluster.folder, 'shift_clock')}
            cluster.start()
            client = Cluster(cluster.file)
            for number in range(100):
                client.run(lambda tx: [tx.put(rm, b'%d' % number, b'1') for rm in (0, 1)])
            begun = time.monotonic()
            cluster.kill('l0')
            for number in range(20):
                client.run(lambda tx: [tx.put(rm, b'%d' % number, b'2') for rm in (0, 1)])
            self.told = time.monotonic() - begun
            return self.told < 5 and all(process.poll() is None for process in cluster.running.values())


def main(program):
    folder = tempfile.mkdtemp(prefix='pcommit-devices-')
    tests, passed, failed = Tests(program, folder), 0, 0
    names = [name for name, value in vars(Tests).items() if callable(value) and name not in ('__init__', 'cluster', 'ends')]
    for name in names:
        tests.told = ''
        try:
            is_so = getattr(tests, name)()
        except (Exception, SystemExit) as error:
            is_so = False
            print('devices: %s: %r' % (name, error))
        passed += is_so
        failed += not is_so
        if not is_so:
            print('devices: FAILED: %s: %s' % (name, tests.told))
    shutil.rmtree(folder, ignore_errors=True)
    print('devices: %d passed, %d failed' % (passed, failed))
    sys.exit(failed != 0)


if __name__ == '__main__':
    main(*sys.argv[1:])
