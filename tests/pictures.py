#!/usr/bin/env python3
"""Draws traces with the built program and looks at the pictures: `tests/pictures.py [PROGRAM]`. Each golden trace, each of runs over
sockets and each of tests/pictures is drawn, and what stands in the picture is worked out again from the trace: its lines, an arrow for
each delivery, thick for the first that was taken, a stroke for each datagram that was lost or never taken, a band for each view, and a
link for each event. The pictures in docs/pictures and tests/pictures are compared as a whole. Then what is refused. The last line is 'N
passed, M failed'."""
import os
import subprocess
import sys
import tempfile
import urllib.parse
import xml.etree.ElementTree as ElementTree
from pathlib import Path

from checks import check, end

TESTS = Path(__file__).resolve().parent
PAGES = TESTS.parent / "docs" / "pictures"
program = os.path.realpath(sys.argv[1] if len(sys.argv) > 1 else "bin/pcommit_picture")
scratch = tempfile.TemporaryDirectory()
SVG = "{http://www.w3.org/2000/svg}"


def draw(*words, folder=TESTS, **more):
    return subprocess.run([program, *words], cwd=folder, capture_output=True, **more)


# ---- what a picture has, worked out from its trace

def number(element, name):
    return int(element.get(name))


class Picture:
    """The parts of a picture: where the rows and the lanes are, strokes, bands and links."""

    def __init__(self, text):
        root = ElementTree.fromstring(text)
        root.remove(next(part for part in root if part.get("id") == "legend"))
        texts = list(root.iter(SVG + "text"))
        self.told = [part.text for part in texts if part.get("class") == "line"]
        self.numbers = [part.text for part in texts if part.get("class") == "number"]
        self.notes = [part.text for part in texts if part.get("class") == "note"]
        self.rows = {at + 1: number(part, "y") - 3
                     for at, part in enumerate(part for part in texts if part.get("class") == "line")}
        names = [part for part in texts if part.get("class") == "name"]
        self.lanes = {part.text: number(part, "x") for part in names}
        self.heads = sorted({number(part, "y") for part in names})
        self.strokes = [(part.get("class"), *(number(part, name) for name in ("x1", "y1", "x2", "y2")))
                        for part in root.iter(SVG + "line")]
        self.bands = [(part.get("class"), number(part, "x") + 5, number(part, "y")) for part in root.iter(SVG + "rect")
                      if part.get("class")]
        self.links = [part.get("href") for part in root.iter(SVG + "a")]

    def head(self, line):
        """Where the names of the nodes stand on the page of a line."""
        return max(head for head in self.heads if head < self.rows[line])

    def way(self, sent, line):
        """Where the stroke of a datagram begins in the row of a line, and the lane of its receiver."""
        at, sender, receiver = sent
        same = self.head(at) == self.head(line)
        return self.lanes[sender], self.rows[at] if same else self.head(line) + 6, self.lanes[receiver]


# the answers that docs/FORMATS.md knows of a delivery, and whether the receiver took the datagram
TOOK = {"ok": True, "refused 8": False, "refused 11": False}


def was_taken(words, following):
    """Whether a delivery was taken, by its answer. Where the record failed, the next line tells whether what was written stands there."""
    answer = " ".join(words[words.index("->") + 1:])
    return following[:1] == ["now"] if answer == "refused 5" else TOOK[answer]


def strokes(lines, picture):
    """The strokes of datagrams and notices that the trace asks for."""
    sent, taken, settled, wanted = {}, set(), set(), []
    for (line, words), (_, following) in zip(lines, lines[1:] + [(0, [])]):
        # notices have numbers of their own
        name = (words[0] in ("told", "hear"), words[1])
        if words[0] in ("sent", "told"):
            # of two with one number the first is drawn
            sent.setdefault(name, (line, words[2], words[3]))
        if words[0] not in ("deliver", "cut", "lose", "hear") or words[-2:] == ["refused", "15"]:
            continue
        counts = words[0] in ("deliver", "hear") and was_taken(words, following)
        if counts or words[0] == "lose":
            settled.add(name)
        # a trace that is written by hand may lack the line where a datagram is sent, or have it only later
        if name not in sent:
            continue
        x, y, lane = picture.way(sent[name], line)
        if words[0] == "lose":
            wanted.append(("lost", x, y, (x + lane) // 2, picture.rows[line]))
            continue
        is_first = counts and name not in taken
        wanted.append(("arrow" if is_first else "again", x, y, lane, picture.rows[line]))
        if counts:
            taken.add(name)
    for name, (at, sender, receiver) in sent.items():
        if name not in settled:
            x, y = picture.lanes[sender], picture.rows[at]
            wanted.append(("waiting", x, y, x + 26 if picture.lanes[receiver] > x else x - 26, y + 4))
    return wanted


def look(path):
    done = draw(path.name, folder=path.parent)
    name = f"picture of {path.name}"
    if done.returncode or done.stderr:
        check(name, False, done.stderr)
        return
    trace = path.read_text()
    lines = [(at + 1, line.split()) for at, line in enumerate(trace.splitlines())]
    picture = Picture(done.stdout)
    told = [line if len(line) <= 47 else line[:44] + "..." for line in trace.splitlines()]
    check(f"{name}, its lines", (picture.told, picture.numbers) == (told, [str(at) for at, _ in lines]))
    drawn = [stroke for stroke in picture.strokes if stroke[0] not in ("lane", "work")]
    wanted = strokes(lines, picture)
    check(f"{name}, its strokes", sorted(drawn) == sorted(wanted), set(drawn) ^ set(wanted))
    wanted = [(words[3], picture.lanes[words[1]], picture.rows[at]) for at, words in lines if words[0] == "now"]
    tops = {head + 6 for head in picture.heads}
    check(f"{name}, its bands", [band for band in picture.bands if band[2] not in tops] == wanted)
    told = [f"{path.name}#L{at}" for at, _ in lines]
    events = [f"{path.name}#L{at}" for at, words in lines if words[0] not in ("cluster", "table", "sent", "told", "final")]
    check(f"{name}, its links", picture.links == told + events)
    served = any(words[0] == "serve" for _, words in lines)
    check(f"{name}, its note", any("no arrows" in note for note in picture.notes) == served)
    cluster = dict(zip(lines[0][1][1::2], map(int, lines[0][1][2::2])))
    nodes = [f"{kind[0]}{at}" for kind in ("rms", "leaders", "acceptors") for at in range(cluster[kind])]
    check(f"{name}, its lanes", list(picture.lanes) == nodes)


def is_refused(path):
    """Whether a text is none of a trace: the program that reads it has status 3."""
    status = path.with_suffix(".status")
    return path.suffix == ".trace" and status.exists() and status.read_text() == "3\n"


traces = [path for folder, kind in (("golden", "*.out"), ("udp", "*.out"), ("audit", "*.trace"), ("pictures", "*.trace"))
          for path in sorted((TESTS / folder).glob(kind)) if path.stat().st_size and not is_refused(path)]
for trace in traces:
    look(trace)
check("traces", len(traces) > 50, f"there are {len(traces)}")

# ---- pictures as a whole

for drawn in sorted((TESTS / "pictures").glob("*.svg")):
    done = draw(drawn.stem + ".trace", folder=drawn.parent)
    check(drawn.name, done.returncode == 0 and done.stdout == drawn.read_bytes())
pages = sorted(PAGES.glob("*.svg"))
check("pictures of the pages", len(pages) > 2)
for drawn in pages:
    done = draw(f"../../tests/golden/{drawn.stem}.out", folder=PAGES)
    check(drawn.name, done.returncode == 0 and done.stdout == drawn.read_bytes())

# ---- what is refused

USAGE = b"pcommit_picture: usage: pcommit_picture FILE\n"


def refused(name, number, *words, **more):
    done = draw(*words, **more)
    line = f"pcommit_picture: refused {number}".encode()
    check(name, done.returncode == 3 and not done.stdout and done.stderr.startswith(line), (done.returncode, done.stderr))


for words in ((), ("a", "b"), (b"\xff",)):
    done = draw(*words)
    check(f"words {words}", (done.returncode, done.stdout, done.stderr) == (2, b"", USAGE), done)
refused("a missing file", 16, "no such file")
refused("a folder", 16, ".")
refused("a script", "7 line 3", "golden/plain_commit.script")
refused("sizes outside the limits", 13, "audit/rows_of_r255.trace")
trace = (TESTS / "pictures" / "sockets.trace").read_bytes()
cut = Path(scratch.name) / "cut.trace"
for length in range(len(trace)):
    cut.write_bytes(trace[:length])
    refused(f"a trace of {length} bytes", f"7 line {trace[:length].count(10) + 1}", cut)

# a name that would be markup, or another kind of address
for name in ("a '<b>& \".trace", "javascript:a.trace", "100%.trace", "Häßlich\n.trace"):
    (Path(scratch.name) / name).write_bytes(trace)
    done = draw(name, folder=scratch.name)
    link = Picture(done.stdout).links[0]
    check(f"a file named {name!r}", urllib.parse.unquote(link) == f"{name}#L1" and ":" not in link, link)

# output that can't be written
with open("/dev/full", "wb") as full:
    done = subprocess.run([program, "pictures/lost.trace"], cwd=TESTS, stdout=full, stderr=subprocess.PIPE)
check("full output", (done.returncode, done.stderr) == (3, b"pcommit_picture: refused 16\n"), done)

# each block of memory refused in turn
library = os.path.join(scratch.name, "refuse.so")
subprocess.run(["cc", "-shared", "-fPIC", "-o", library, TESTS / "refuse_memory.c", "-ldl"], check=True)
marks = os.open(os.path.join(scratch.name, "marks"), os.O_RDWR | os.O_CREAT)
os.dup2(marks, 9)


def short(at):
    return draw("pictures/sockets.trace", pass_fds=[9], env={**os.environ, "REFUSE": str(at), "LD_PRELOAD": library})


whole = short(0).stdout
blocks = os.lseek(9, 0, os.SEEK_END)
check("blocks of memory", blocks > 100 and whole, blocks)
for at in range(1, blocks + 1):
    done = short(at)
    wants = (done.returncode, done.stdout, done.stderr) == (3, b"", b"pcommit_picture: refused 11\n")
    # where less room served, it is drawn as ever
    check(f"block {at}", wants or (done.returncode, done.stdout) == (0, whole), done)

end()
