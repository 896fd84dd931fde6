#!/usr/bin/python3
"""Two PostgreSQL servers and one transaction over both, whose coordinator dies between prepare and outcome: demo.py PROGRAM. First with
plain two-phase commit, then with pcommit beside the same servers; `--plain` or `--pcommit` for one alone."""
import importlib.util
import multiprocessing
import os
import shutil
import signal
import subprocess
import sys
import tempfile
import threading
import time

import psycopg2

HERE = os.path.dirname(os.path.abspath(__file__))
sys.path[:0] = [HERE, os.path.join(HERE, '..', 'cluster')]
from pay import Payer
from pcommit_client import Cluster
from plain import Coordinator
from servers import FIRST, Servers

ACCOUNTS = 16
BACK = 10


def host_of(program, folder):
    """The seven processes of examples/cluster/demo.py."""
    path = os.path.join(HERE, '..', 'cluster', 'demo.py')
    spec = importlib.util.spec_from_file_location('cluster_demo', path)
    module = importlib.util.module_from_spec(spec)
    spec.loader.exec_module(module)
    return module.Host(program, folder, beside=True)


def say(words=''):
    print(words, flush=True)


def pay_many(make, number, seconds, told):
    """A client that pays for a while."""
    payer, done, until = make(), 0, time.time() + seconds
    while time.time() < until:
        try:
            payer.pay((number * 2 + done % 2) % ACCOUNTS, (number * 2 + 1 - done % 2) % ACCOUNTS, 1)
            done += 1
        except Exception:
            time.sleep(0.005)
    told.put(done)


def bank(make, servers, seconds=3, clients=8):
    told = multiprocessing.Queue()
    processes = [multiprocessing.Process(target=pay_many, args=(make, number, seconds, told)) for number in range(clients)]
    for one in processes:
        one.start()
    done = sum(told.get() for _ in processes)
    for one in processes:
        one.join()
    say('   %d clients pay for %d s: %d payments, %.0f a second; the sum over both servers is %s' % (
        clients, seconds, done, done / seconds, 'what it was' if servers.sum() == 2 * ACCOUNTS * FIRST else 'WRONG'))


def until_free(servers, account, begun, others):
    """Says what another client sees that wants the rows, until both are free. The seconds that took."""
    was_locked = [False, False]
    while True:
        free = 0
        for rm in (0, 1):
            try:
                servers[rm].ask('SELECT balance FROM account WHERE number = %s FOR UPDATE NOWAIT', account)
                free += 1
            except psycopg2.errors.LockNotAvailable:
                if not was_locked[rm]:
                    was_locked[rm] = True
                    say('   %5.2f s  another client wants the row at server %d: locked' % (time.monotonic() - begun, rm))
        if free == 2:
            took = time.monotonic() - begun
            say('   %5.2f s  the rows at both servers are free; %s; prepared there: %s' % (took, others(), servers.prepared()))
            return took
        time.sleep(0.02)


def balances(servers, account):
    return 'account %d has %d at server 0 and %d at server 1' % (
        account, servers[0].balances()[account], servers[1].balances()[account])


def stop_at(make, name, reached):
    """Pays once, and stands still at a step."""
    def step(at):
        if at == name:
            reached.set()
            time.sleep(3600)
    make(step).pay(0, 0, 10)


def plain(folder, servers):
    say('1. Plain two-phase commit: a coordinator with a log')
    log, dsns = os.path.join(folder, 'coordinator.log'), [servers[0].dsn, servers[1].dsn]
    make = lambda step=lambda name: None: Coordinator(log, dsns, step)
    bank(make, servers)
    reached = multiprocessing.Event()
    coordinator = multiprocessing.Process(target=stop_at, args=(make, 'prepared at 1', reached), daemon=True)
    coordinator.start()
    reached.wait(20)
    say('   10 are to go from account 0 at server 0 to account 0 at server 1. Both have prepared')
    coordinator.kill()
    begun = time.monotonic()
    say('   %5.2f s  the coordinator is killed' % 0)

    def back():
        say('   %5.2f s  somebody starts the coordinator again, and it reads its log' % (time.monotonic() - begun))
        subprocess.run([sys.executable, os.path.join(HERE, 'plain.py'), log, *dsns], stdout=subprocess.DEVNULL, check=True)
    timer = threading.Timer(BACK, back)
    timer.start()
    took = until_free(servers, 0, begun, lambda: balances(servers, 0))
    timer.join()
    return took


def wait_for(cluster, tx, view):
    for rm in (0, 1):
        while cluster.ask('r%d' % rm, 'view r%d %s' % (rm, tx))[0] != view:
            time.sleep(0.005)


def stop_in_the_middle(file, dsns, pipe):
    """Pays once; tells the transaction when all is prepared, and then waits for its outcome."""
    payer = Payer(Cluster(file), dsns)
    settle = payer.cluster.settle

    def told(tx):
        pipe.send(tx)
        pipe.recv()
        return settle(tx)
    payer.cluster.settle = told
    payer.pay(0, 0, 10)


def pcommit(program, folder, servers):
    say('2. The same servers with pcommit: three acceptors, two leaders, a manager and a resolver beside each server')
    host, dsns, resolvers = host_of(program, folder), [servers[0].dsn, servers[1].dsn], []
    try:
        host.start_all()
        for rm in (0, 1):
            words = [sys.executable, os.path.join(HERE, 'resolver.py'), host.file, str(rm), dsns[rm]]
            resolvers.append(subprocess.Popen(words))
        bank(lambda: Payer(Cluster(host.file), dsns), servers)
        watcher = Cluster(host.file)
        mine, other = multiprocessing.Pipe()
        application = multiprocessing.Process(target=stop_in_the_middle, args=(host.file, dsns, other), daemon=True)
        application.start()
        tx = mine.recv()
        # two of three acceptors stand still, so that the votes don't get through before the kill
        for name in ('a0', 'a1'):
            host.signal(name, signal.SIGSTOP)
        mine.send('go on')
        wait_for(watcher, tx, 'prepared')
        say('   10 are to go from account 0 at server 0 to account 0 at server 1. Both have prepared, and both managers have voted')
        application.kill()
        host.signal('l0', signal.SIGKILL)
        begun = time.monotonic()
        say('   %5.2f s  the leader is killed, and the application with it. Nobody starts them again' % 0)
        for name in ('a0', 'a1'):
            host.signal(name, signal.SIGCONT)
        took = until_free(servers, 0, begun, lambda: balances(servers, 0))
        watcher.close()
        return took
    finally:
        for one in resolvers:
            one.kill()
            one.wait()
        host.stop()


def main(program, *flags):
    folder = tempfile.mkdtemp(prefix='pcommit-postgresql-')
    os.chmod(folder, 0o755)
    say('Two PostgreSQL servers are made in %s' % folder)
    servers = Servers(folder, ACCOUNTS)
    try:
        took = {}
        if '--pcommit' not in flags:
            took['plain two-phase commit'] = plain(folder, servers)
            say()
        if '--plain' not in flags:
            took['pcommit'] = pcommit(os.path.abspath(program), folder, servers)
            say()
        for name, seconds in took.items():
            say('%s: rows were locked for %.2f s%s' % (name, seconds, ', until the coordinator was back' if name[1] == 'l' else ''))
    finally:
        servers.stop()
        shutil.rmtree(folder)


if __name__ == '__main__':
    main(*sys.argv[1:])
