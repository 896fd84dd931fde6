"""Clients of two PostgreSQL servers for bench/cluster.py, of the same kind as its own: many in a process, each told when an answer
has come. A transaction inserts a row at each server. Plain: begin, insert and prepare in one message to both servers at once, then the decision in a
log (`log`, with a sync of its own), then commit both. By pcommit: the same, but for the log a branch is ended at each manager, and a leader
asked."""
import os
import select
import sys
import time

import psycopg2
from psycopg2 import extensions

sys.path.insert(0, os.path.join(os.path.dirname(os.path.abspath(__file__)), '..', 'examples', 'postgresql'))
from pay import gid_of
from pcommit_client import Cluster, Connection


def make_tables(servers):
    for server in servers.all:
        server.ask('DROP TABLE IF EXISTS kv')
        server.ask('CREATE TABLE kv (k text PRIMARY KEY, v text)')


class PostgresClient:
    """The servers alone; with a log where its name is given; ended by pcommit where a cluster's file is."""

    def __init__(self, number, serial, dsns, log=None, file=None):
        self.number, self.serial, self.file = number, serial, file
        self.log = open(log + str(number), 'a') if log else None
        self.servers = {'s%d' % rm: connect(dsn) for rm, dsn in enumerate(dsns)}
        self.cursors = {name: connection.cursor() for name, connection in self.servers.items()}
        self.sockets = {name: connection.fileno() for name, connection in self.servers.items()}
        self.ends, self.left = {}, {}
        if file:
            cluster = Cluster(file)
            for name in ('r0', 'r1', 'l0'):
                self.ends[name] = Connection(name, cluster.addresses[name], cluster.key and cluster.proof(name), 5)
                self.left[name] = b''
                self.ends[name].socket.setblocking(True)
                self.sockets[name] = self.ends[name].socket.fileno()

    def ask(self, name, *lines):
        self.ends[name].socket.sendall(''.join(line + '\n' for line in lines).encode())
        self.wanted[name] = len(lines)

    def execute(self, rm, words):
        self.cursors['s%d' % rm].execute(words)
        self.wanted['s%d' % rm] = 1

    def begin(self):
        self.serial += 1
        self.begun, self.wanted, self.phase = time.perf_counter(), {}, 0
        gtrid = '%04x%012x' % (self.number, self.serial)
        self.tx = '1:%s/0=00,1=01' % gtrid
        self.xids = ['r%d 1:%s:%02x' % (rm, gtrid, rm) for rm in (0, 1)]
        for rm in (0, 1):
            self.execute(rm, "BEGIN; INSERT INTO kv VALUES ('%s', 'x'); PREPARE TRANSACTION '%s'" % (gtrid, gid_of(rm, self.tx)))

    def come(self, name):
        if name in self.servers:
            if self.servers[name].poll() == extensions.POLL_OK:
                self.wanted.pop(name, None)
        else:
            lines = (self.left[name] + self.ends[name].socket.recv(65536)).split(b'\n')
            self.left[name] = lines.pop()
            self.wanted[name] -= len(lines)
            if any(line not in (b'0', b'undecided', b'committed') for line in lines):
                raise SystemExit('%s is answered at %s to %s' % (lines, name, self.tx))
            if not self.wanted[name]:
                del self.wanted[name]
        return None if self.wanted else self.go_on()

    def go_on(self):
        """The next step, when all answers of the last one are there."""
        self.phase += 1
        if self.phase == 1 and self.file:
            for rm in (0, 1):
                self.ask('r%d' % rm, 'start ' + self.xids[rm], 'end ' + self.xids[rm])
        elif self.phase == 2 and self.file:
            self.ask('l0', 'commit l0 ' + self.tx, 'await l0 ' + self.tx)
        elif self.phase in (1, 3):
            if self.log:
                self.log.write(self.tx + '\n')
                self.log.flush()
                os.fdatasync(self.log.fileno())
            self.outcome = time.perf_counter() - self.begun
            for rm in (0, 1):
                self.execute(rm, "COMMIT PREPARED '%s'" % gid_of(rm, self.tx))
        else:
            return self.outcome, time.perf_counter() - self.begun


def connect(dsn):
    connection = psycopg2.connect(dsn, async_=True)
    while connection.poll() != extensions.POLL_OK:
        select.select([connection.fileno()], [], [], 0.01)
    return connection
