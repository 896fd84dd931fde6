"""Stands between the nodes of a cluster, and loses, delays, reorders, repeats and cuts their datagrams, by a seed. Each node's file names
a socket of the forwarder in the place of each other node."""
import heapq
import multiprocessing
import random
import select
import socket
import time

# Of a datagram: how likely it is lost, sent twice, or late, and by how many seconds at most
QUIET = {'lose': 0.0, 'repeat': 0.0, 'delay': 0.0, 'most': 0.0}
ROUGH = {'lose': 0.05, 'repeat': 0.05, 'delay': 0.2, 'most': 0.05}


def free_end(cluster):
    """A socket at a place that is no node's, nor one where clients find a node: those are free until the nodes start."""
    taken = {*cluster.nodes.values(), *cluster.clients.values()}
    while True:
        end = socket.socket(socket.AF_INET, socket.SOCK_DGRAM)
        end.setsockopt(socket.SOL_SOCKET, socket.SO_RCVBUF, 1 << 20)
        end.bind((cluster.host, 0))
        if end.getsockname() not in taken:
            return end
        end.close()


class Forwarder:
    """In a process of its own. `cut` and `heal` say who hears whom; `counts` what was done; `recorded` what was sent, where it is kept."""

    def __init__(self, cluster, seed, rates=None, keeps=0):
        self.pipe, other = multiprocessing.Pipe()
        places = {}
        for sender in cluster.names:
            for receiver in cluster.names:
                if sender != receiver:
                    places[sender, receiver] = free_end(cluster)
        cluster.through = {pair: end.getsockname() for pair, end in places.items()}
        cluster.file = cluster.write_files()
        args = (other, places, cluster.nodes, seed, dict(rates or QUIET), keeps)
        self.process = multiprocessing.Process(target=forward, args=args, daemon=True)
        self.process.start()
        for end in places.values():
            end.close()

    def ask(self, *words):
        self.pipe.send(words)
        return self.pipe.recv()

    def cut(self, side, other):
        """Nobody of a side hears anybody of the other."""
        pairs = [(a, b) for a in side for b in other] + [(b, a) for a in side for b in other]
        return self.ask('cut', pairs)

    def heal(self):
        return self.ask('heal')

    def rates(self, rates):
        return self.ask('rates', rates)

    def counts(self):
        return self.ask('counts')

    def recorded(self):
        """(sender, receiver, bytes) of what was sent first."""
        return self.ask('recorded')

    def stop(self):
        self.process.kill()
        self.process.join()


def forward(pipe, places, true, seed, rates, keeps):
    chance = random.Random(seed)
    counts = dict.fromkeys(('forwarded', 'lost', 'repeated', 'delayed', 'cut'), 0)
    late, kept, cuts, serial = [], [], set(), 0
    poll = select.poll()
    pairs = {}
    for pair, end in places.items():
        end.setblocking(False)
        poll.register(end, select.POLLIN)
        pairs[end.fileno()] = pair
    poll.register(pipe, select.POLLIN)
    while True:
        wait = 1000 if not late else max(0, (late[0][0] - time.monotonic()) * 1000)
        for number, _event in poll.poll(wait):
            if number == pipe.fileno():
                try:
                    words = pipe.recv()
                except EOFError:
                    return
                if words[0] == 'cut':
                    cuts.update(words[1])
                elif words[0] == 'heal':
                    cuts.clear()
                elif words[0] == 'rates':
                    rates.update(words[1])
                pipe.send(kept if words[0] == 'recorded' else dict(counts))
                continue
            pair = pairs[number]
            end = places[pair]
            for _ in range(16):
                try:
                    data = end.recv(2048)
                except OSError:
                    break
                if len(kept) < keeps:
                    kept.append(pair + (data,))
                if pair in cuts:
                    counts['cut'] += 1
                    continue
                if rates['lose'] and chance.random() < rates['lose']:
                    counts['lost'] += 1
                    continue
                again = bool(rates['repeat']) and chance.random() < rates['repeat']
                counts['repeated'] += again
                for copy in range(1 + again):
                    # a copy is always late, so that datagrams overtake one another
                    if rates['delay'] and (copy or chance.random() < rates['delay']):
                        counts['delayed'] += 1
                        serial += 1
                        heapq.heappush(late, (time.monotonic() + chance.random() * rates['most'], serial, pair, data))
                    else:
                        counts['forwarded'] += 1
                        put(end, data, true[pair[1]])
        now = time.monotonic()
        while late and late[0][0] <= now:
            _due, _serial, pair, data = heapq.heappop(late)
            counts['forwarded'] += 1
            put(places[pair], data, true[pair[1]])


def put(end, data, place):
    try:
        end.sendto(data, place)
    except OSError:
        pass
