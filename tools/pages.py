#!/usr/bin/env python3
"""pages.py --check: counts again what the pages say there is so many of (crates, runs, edits, tests, calls, rules), and fails where a page
says another figure, or none says it any more, or two pages differ in how long `make try` takes; where a link of a page leads to no file
or no heading; where a file of the repository that a page names isn't there; where FORMATS.md has other bytes of a cluster's digest and
a signed letter than Python's hashes give. Figures of time and speed are measured and can't be counted again."""
import ast
import hashlib
import hmac
import re
import sys
from pathlib import Path

ROOT = Path(__file__).resolve().parent.parent
# what is made and isn't kept
MADE = ("docs/DEFINITIONS.md", "bin/")
PAGES = ["README.md", "CONTRIBUTING.md", "Makefile", "bench/RESULTS.md"] + sorted(
    str(path.relative_to(ROOT)) for path in (ROOT / "docs").glob("*.md") if path.name not in ("DEFINITIONS.md", "definitions-head.md"))
ONES = ("zero one two three four five six seven eight nine ten eleven twelve thirteen fourteen fifteen sixteen seventeen eighteen "
        "nineteen").split()
TENS = "twenty thirty forty fifty sixty seventy eighty ninety".split()


def text(path):
    return (ROOT / path).read_text(encoding="utf-8")


def value(word):
    """The number that digits or words are."""
    if word[0].isdigit():
        return int(word.replace(",", ""))
    ten, _, one = word.partition("-")
    return ONES.index(ten) if ten in ONES else 20 + 10 * TENS.index(ten) + (ONES.index(one) if one else 0)


def count(pattern, holds=""):
    """How many files there are whose text has something in it."""
    return sum(holds in path.read_text(encoding="utf-8") for path in ROOT.glob(pattern))


def constant(script, name):
    """What a name at the top of a script of tests is."""
    nodes = ast.parse(text(f"tests/{script}")).body
    return next(ast.literal_eval(node.value) for node in nodes
                if isinstance(node, ast.Assign) and getattr(node.targets[0], "id", None) == name)


def cases(crate):
    """The cases of a program, each by its lines."""
    blocks = [[line for line in case.splitlines() if not line.startswith("#")] for case in text(f"crates/{crate}/stdin").split("\n\n")]
    return [block for block in blocks if block]


def calls():
    """How many calls the cases of single parts make, in hundreds."""
    return round(sum(len(case) - 1 for case in cases("cases")), -2)


def named_edits():
    """The names of edits in the first table of EVIDENCE.md, and the edits, each by its crate and name."""
    table = text("docs/EVIDENCE.md").split("## Wrong bodies in the gate")[1].split("\nAn edit costs")[0]
    names = re.findall(r"`([a-z_0-9]+)`", table)
    edits = [(path.parts[-3], path.stem) for path in ROOT.glob("crates/*/must-fail/*.edit")]
    return [edit for edit in edits if edit[1] in names or re.sub(r"_(\d+|changes|gets|tables|order)$", "", edit[1]) in names], edits


def told_rules():
    """How many wrong rules PROTOCOL.md tells."""
    told = re.findall(r"`([a-z_0-9]+)`", text("docs/PROTOCOL.md").split("## Why each rule is there")[1])
    return len({path.stem for path in ROOT.glob("tests/wrong-rules/*.rule")} & set(told))


def anchors(page):
    """The places in a page that a link may lead to: its headings, as pages show them."""
    heads = re.findall(r"^#+ +(.*)$", re.sub(r"^```.*?^```", "", text(page), flags=re.M | re.S), re.M)
    return {re.sub(r"[^\w\- ]", "", head.lower()).replace(" ", "-") for head in heads}


def broken_links(page):
    """The links of a page that lead nowhere."""
    for target in re.findall(r"\]\(([^)\s]+)\)", text(page)):
        file, _, place = target.partition("#")
        if re.match(r"\w+:", target):
            continue
        path = (ROOT / page).parent / file if file else ROOT / page
        if not path.exists():
            yield f"{page} links to {target}: no such file"
        elif place and place not in anchors(path.resolve().relative_to(ROOT)):
            yield f"{page} links to {target}: no such heading"


def missing_files(page):
    """The files that a page names by their path from the top, and that aren't there. A name in capitals or a star stands for any."""
    for name in re.findall(r"`((?:crates|docs|tests|tools|bench|examples)/[^`\s]*)`", text(page)):
        if not name.startswith(MADE) and not any(ROOT.glob(re.sub(r"\b[A-Z_]{3,}\b(?!\.md)", "*", name).rstrip("/"))):
            yield f"{page} names {name}, which isn't there"


def worked_hashes():
    """What FORMATS.md has to say of the digest of a cluster of one node each with the row 6b=30, and of a signed letter of two messages."""
    one = (1).to_bytes(8, "big")
    digest = hashlib.sha256(bytes([1, 1, 1, 0]) + one + one + b"\x6b" + one + b"\x30").digest()
    prepares = [bytes.fromhex(f"02010000000101{gtrid}0100000161") for gtrid in ("74", "75")]
    letter = b"\x03" + b"".join(len(message).to_bytes(2, "big") + message for message in prepares)
    key, sender, receiver = bytes(range(32)), bytes([1, 0]), bytes([2, 0])
    hashed = digest + sender + receiver + letter
    tag = hmac.new(key, hashed, "sha256").digest()
    return [
        f"as `r0 {digest.hex()}`, of a cluster of one node each, not bundled, whose first table has 6b=30",
        f"sends it to r0 in {len(letter + sender + tag)} bytes",
        f"under the key `{key.hex()}`, these are: ```text {letter.hex()} the letter {sender.hex()} its sender, leader 0 "
        f"{tag.hex()} the tag ```",
        f"the HMAC-SHA256 of these {len(hashed)} bytes: ```text {digest.hex()} the cluster's digest {sender.hex()} the sender, leader 0 "
        f"{receiver.hex()} the receiver, resource manager 0 {letter.hex()} the letter ```",
    ]


named, edits = named_edits()
unnamed = ["/".join(edit) for edit in edits if edit not in named]
rules, looking_back = count("tests/wrong-rules/*.rule"), count("tests/wrong-rules/*.rule", "crate: history")
floored = count("tests/wrong-rules/*.rule", "crate: floors")
# rules that are safe, and leave a transaction waiting
safe = count("tests/wrong-rules/*.law", "ProgressLaws")
# rules that are safe, and tell a client wrongly, or commit nothing
otherwise = count("tests/wrong-rules/*.law", "AnswersLaws") + count("tests/wrong-rules/*.law", "CommitsLaws")
# a number, which stands as # in what follows
NUMBER = rf"\b(\d[\d,]*|(?:{'|'.join(TENS)})(?:-[a-z]+)?|{'|'.join(ONES)})\b"
FIGURES = [
    # two runs share one file
    ("# worked runs", count("crates/protocol/proofs/*.antt", "proofs.RowWords") + 1),
    ("tries # wrong bodies", len(edits)), ("There are #, each of which bears one of these names", len(edits)),
    ("So # others stand in `tests/wrong-bodies`", count("tests/wrong-bodies/*/*.edit")),
    ("and # tests that are proved", sum(path.read_text(encoding="utf-8").count("#[test]") for path in ROOT.glob("crates/*/src/**/*.rt"))),
    ("some # calls of the codec", calls()), ("has # cases of the process", len(cases("process_cases"))),
    ("tries # wrong rules", rules), ("# of the protocol, six of which", rules - looking_back - floored),
    ("# ways to look back", looking_back), ("and # of floors", floored),
    ("For # rules it is also proved", count("tests/wrong-rules/*.law") - safe - otherwise),
    ("The other # rules of the protocol are safe", safe),
    ("tells # of them", told_rules()),
    ("each append of # golden runs", len(constant("sweeps.py", "TORN_ROWS"))),
    ("after each event of #, puts", len(constant("sweeps.py", "SHORTER_ROWS"))),
    ("has # transactions in a cluster", constant("many.py", "TRANSACTIONS")),
    ("each report twice; and # branches", constant("many.py", "READERS")),
]


def main():
    pages = {page: " ".join(text(page).split()) for page in PAGES}
    wrong = [f"EVIDENCE doesn't name {edit}, which is in the gate" for edit in unnamed]
    for pattern, right in FIGURES:
        said = [(page, found[1]) for page in pages for found in re.finditer(pattern.replace('#', NUMBER), pages[page])]
        wrong += [f"{page} says {word} where there are {right}: {pattern}" for page, word in said if value(word.lower()) != right]
        wrong += [] if said else [f"no page says how many there are: {pattern}, {right}"]
    minutes = r"(?:in|proofs:) (about [a-z ]*minutes?)(?=, with no proofs|\.\")"
    tries = {found for page in pages.values() for found in re.findall(minutes, page)}
    wrong += [] if len(tries) == 1 else [f"`make try` takes {' and '.join(tries)}"]
    wrong += [f"FORMATS doesn't say: {said}" for said in worked_hashes() if said not in pages["docs/FORMATS.md"]]
    for page in PAGES:
        wrong += [*broken_links(page), *missing_files(page)]
    print("\n".join(wrong), end="\n" if wrong else "", file=sys.stderr)
    return 1 if wrong else 0


if __name__ == "__main__":
    sys.exit(main())
