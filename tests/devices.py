#!/usr/bin/env python3
"""devices.py PROGRAM: files and sockets that fail under `pcommit udp`. Faults are found node by node, the file (16) before its bytes (4),
and the sockets (12) after all records; what comes after the first fault isn't touched. The last line is 'N passed, M failed'."""
import fcntl
import itertools
import os
import resource
import subprocess
import sys
import tempfile

program = os.path.realpath(sys.argv[1])
NODES = ['a0', 'l0', 'r0']
SCRIPT = 'cluster acceptors 1 leaders 1 rms 1\n'
# what is wrong with a node's file, and how it is refused
FAULTS = {None: 0, 'is a folder': 16, 'is open elsewhere': 16, 'is damaged': 4}
passed = failed = 0


def check(name, got, wanted):
    global passed, failed
    if got == wanted:
        passed += 1
    else:
        failed += 1
        print('FAILED %s: %s, wanted %s' % (name, got, wanted))


def run(faults, limit=None):
    """Which refusal the program answers where the nodes' files have these faults, 0 for none, and which files are there then; with so
    many descriptors, where a limit is given."""
    with tempfile.TemporaryDirectory() as place:
        folder = os.path.join(place, 'records')
        os.mkdir(folder)
        held = []
        for node, fault in zip(NODES, faults):
            path = os.path.join(folder, node + '.rec')
            if fault == 'is a folder':
                os.mkdir(path)
            elif fault:
                held.append(open(path, 'wb'))
                if fault == 'is open elsewhere':
                    fcntl.flock(held[-1], fcntl.LOCK_EX)
                else:
                    held[-1].write(b'no record')
                    held[-1].flush()
        script = os.path.join(place, 'script')
        with open(script, 'w') as file:
            file.write(SCRIPT)
        few = limit and (lambda: resource.setrlimit(resource.RLIMIT_NOFILE, (limit, limit)))
        done = subprocess.run([program, 'udp', script, folder], capture_output=True, text=True, preexec_fn=few)
        for file in held:
            file.close()
        there = [node for node in NODES if os.path.exists(os.path.join(folder, node + '.rec'))]
        if (done.returncode, done.stdout, done.stderr) == (0, SCRIPT + 'final r0\n', ''):
            return 0, there
        if done.returncode == 3 and not done.stdout and done.stderr.startswith('pcommit: refused '):
            return int(done.stderr.split()[2]), there
        return (done.returncode, done.stdout, done.stderr), there


def wanted(faults):
    """The refusal of the first node that has a fault, and the files of the nodes up to it, and of those that have one."""
    first = next((at for at, fault in enumerate(faults) if fault), len(NODES))
    there = [node for at, node in enumerate(NODES) if at <= first or faults[at]]
    return (FAULTS[faults[first]] if first < len(NODES) else 0), there


for faults in itertools.product(FAULTS, repeat=len(NODES)):
    check(', '.join('%s %s' % pair for pair in zip(NODES, faults) if pair[1]) or 'no fault', run(faults), wanted(faults))

# with few descriptors no record can be opened; with some more all can, and no socket; with enough it runs
found = [run([None] * 3, limit)[0] for limit in range(4, 40)]
starts = [found.index(refusal) if refusal in found else 0 for refusal in (16, 12, 0)]
check('descriptors', found, [16] * starts[1] + [12] * (starts[2] - starts[1]) + [0] * (len(found) - starts[2]))
check('descriptors for records and none for sockets', starts[0] < starts[1] < starts[2], True)
for limit in range(4 + starts[1], 4 + starts[2]):
    for faults in ([None, None, 'is damaged'], [None, None, 'is a folder'], ['is damaged', None, None], [None, 'is open elsewhere', None]):
        check('%d descriptors, and %s' % (limit, faults), run(faults, limit), wanted(faults))
print('%d passed, %d failed' % (passed, failed))
sys.exit(failed > 0)
