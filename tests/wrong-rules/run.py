#!/usr/bin/env python3
"""Tries each wrong rule NAME.rule of this folder on a copy of crates/protocol/specs: run.py [NAME..]. JOBS: how many at once (2).

run.py --check only looks whether each can be applied: that its files are there, each old text stands in them once, and what its runs use of
the definitions is there. The gate does that.

A rule has a line 'wrong:', what is wrong in a sentence; and edits: 'file:' a file of crates/protocol, then pairs of 'old:', a text that
stands once in it, and 'new:'; several 'old:' or 'new:' lines are a text of several lines. Beside it NAME.run is a run that goes wrong:
`goes_wrong`, which the prover computes, ends in what must never be. A rule that has none has a line 'note:', why. NAME.law is a run that
breaks a law of one serial order: its `goes_wrong` proves that under the rule the clause of crates/history/src/serial.rt is false.

First the right definitions must be proved, and each run must be refused under them, as its last word says otherwise. Then, for each
rule, its runs alone, with no lemma beside them, must be proved under the wrong definitions, which so elaborate; and a proof of
crates/protocol or of crates/safety must be refused. The last line is 'N passed, M failed'.

A rule with a line 'crate: history' is an edit of crates/history, which looks back wrongly, and one with 'crate: floors' of crates/floors:
its run must be proved beside the proofs of that crate, and of these a lemma must be refused that is no worked run.

A rule with a line 'judge: progress' is safe, but a transaction may wait for ever: crates/safety must be proved under it, and
crates/progress must be refused. One with 'judge: answers' is safe and waits for nothing, but a client is told wrongly: crates/safety and
crates/progress must be proved under it, and crates/answers must be refused. Under one with 'judge: commits' nothing may ever commit, and
crates/commits must be refused so. Where the words of a proof of the former don't fit the rule, 'proof:' is a file below crates, and the
pairs after it are words that do. Its NAME.law stands beside the proofs of the judge, and proves that a clause of the judge's
src/headline.rt is false.
"""
import os
import re
import shutil
import subprocess
import sys
import tempfile
import time
from concurrent.futures import ThreadPoolExecutor
from contextlib import contextmanager
from queue import Queue

HERE = os.path.dirname(os.path.realpath(__file__))
ROOT = os.path.dirname(os.path.dirname(HERE))
WORDS = ("RunWords", "BackWords", "FloorWords", "LawWords", "StuckWords", "VainWords", "SilentWords")
DEFINITIONS = re.compile(r"Rattle\.(history|branch_table)\.specs\.(\w+)")
USED = re.compile(r"^use Rattle\.(\w+)\.specs\.(?!declared\.)([\w.]+)\.\{(.*)\}$", re.MULTILINE)
RT = os.environ.get("RT", "rt").split()
JOBS = int(os.environ.get("JOBS", "2"))
ERROR = re.compile(r"^(?:\./)?(\S+):(\d+):\d+: error: (.*)")


class BadRule(Exception):
    """Why a rule shows nothing."""


class Check:
    """What `rt check` said of a crate: whether it is proved, and its errors by file, line and text."""

    def __init__(self, crate):
        self.crate = crate
        told = subprocess.run([*RT, "check"], cwd=crate, text=True, stdout=subprocess.PIPE, stderr=subprocess.STDOUT, timeout=3600)
        self.lines = told.stdout.splitlines()
        self.proved = told.returncode == 0 and any(line.startswith("logic=proved") for line in self.lines)
        self.errors = [found.groups() for found in map(ERROR.match, self.lines) if found]

        proofs = [error for error in self.errors if error[0].startswith("proofs/")]
        self.is_refusal = bool(proofs) and len(proofs) == len(self.errors)
        strange = f"errors that show nothing: {self.errors[:1] or self.lines[-3:]}"
        self.refused_by = self.lemma_at(*proofs[0]) if self.is_refusal else strange

    def lemma_at(self, file, line, text):
        """The lemma of an error, as 'File: lemma'."""
        named = re.match(r"`([^`]+)`: ", text)
        above = read(f"{self.crate}/{file}").splitlines()[:int(line)]
        heads = re.findall(r"^ *(?:pub )?([\w-]+) .*[:=] ", "\n".join(line for line in above if "--" not in line), re.MULTILINE)
        return f"{file[len('proofs/'):-len('.antt')]}: {named[1] if named else heads[-1] if heads else 'its head'}"


def read(file):
    with open(file, encoding="utf-8") as it:
        return it.read()


def write(file, text):
    with open(file, "w", encoding="utf-8") as it:
        it.write(text)


def run_of(name, kind="run"):
    return read(f"{HERE}/{name}.{kind}")


def runs_of(name, kinds=("run", "law")):
    """The runs of a rule, texts by module."""
    return {module_of(name) + kind.capitalize(): run_of(name, kind) for kind in kinds if os.path.exists(f"{HERE}/{name}.{kind}")}


def law_of(name):
    """The law that a run breaks, if it breaks one."""
    if not os.path.exists(f"{HERE}/{name}.law"):
        return ""
    return re.search(r"^pub goes_wrong : (\w+) → ⊥$", run_of(name, "law"), re.MULTILINE)[1]


def stated_laws(file):
    """The laws of a file of empty functions that have one clause each, as a module that defines them."""
    laws = read(f"{ROOT}/crates/{file}")
    uses = re.findall(r"^ghost (use .*);$", laws, re.MULTILINE)
    clauses = re.findall(r"^pub fn (\w+)\(\)\s+ensures \{ (.*?) \}\n\{\}", laws, re.MULTILINE | re.DOTALL)
    return "\n".join(uses + [f"abbrev pub {law} : Type 0\n{law} = {clause}" for law, clause in clauses]) + "\n"


def law_modules():
    """The definitions of looking back and the laws of one serial order, which stand on them, as modules of protocol's proofs."""
    modules, wanted = {"HistoryLaws": stated_laws("history/src/serial.rt")}, {"HistoryLaws"}
    while wanted:
        name = wanted.pop()
        for crate, file in DEFINITIONS.findall(modules[name]):
            if (module := module_of(crate) + file) not in modules:
                modules[module] = read(f"{ROOT}/crates/{crate}/specs/{file}.antt")
                wanted.add(module)
        modules[name] = DEFINITIONS.sub(lambda found: f"Rattle.protocol.proofs.{module_of(found[1])}{found[2]}", modules[name])
        # there are no crates above
        modules[name] = modules[name].replace("Rattle.safety.specs.Vocabulary", "Rattle.protocol.specs.Vocabulary")
    return modules


def crate_of(name):
    """The crate that a rule edits."""
    lines = read(f"{HERE}/{name}.rule").splitlines()
    return next((crate for crate in ("history", "floors") if f"crate: {crate}" in lines), "protocol")


def judge_of(name):
    """The crate whose laws are to refuse a rule: safety for those of the protocol that name none."""
    lines = read(f"{HERE}/{name}.rule").splitlines()
    if crate_of(name) != "protocol":
        return crate_of(name)
    return next((judge for judge in ("progress", "answers", "commits") if f"judge: {judge}" in lines), "safety")


def parse_rule(name):
    """The files of a rule, below crates, and of each the pairs of texts."""
    edits, file, words = {}, None, set()
    for line in read(f"{HERE}/{name}.rule").splitlines():
        word, _, text = line.partition(":")
        text = text[1:]
        words.add(word)
        if word in ("file", "proof"):
            file = edits.setdefault(f"{crate_of(name)}/{text}" if word == "file" else text, [])
        elif word == "old" and file and file[-1][1] is None:
            file[-1][0] += "\n" + text
        elif word == "old":
            file.append([text, None])
        elif word == "new":
            last = file[-1]
            last[1] = text if last[1] is None else last[1] + "\n" + text
        elif word not in ("wrong", "note", "crate", "judge"):
            raise BadRule(f"no such line: {line}")
    if "wrong" not in words or not edits or not (runs_of(name) or "note" in words):
        raise BadRule("it wants a line 'wrong:', an edit, and a run or a note why there is none")
    return edits


def apply(pairs, file, text):
    """A file's text with the edits of a rule."""
    for old, new in pairs:
        if text.count(old) != 1:
            raise BadRule(f"{file}: stands {text.count(old)} times: {old}")
        text = text.replace(old, new)
    return text


def missing_words(text):
    """What a run uses of the definitions of crates, and isn't there: of each crate of the repository the files, and the words in them."""
    for crate, module, words in USED.findall(text):
        path = f"{ROOT}/crates/{crate}/specs/{module.replace('.', '/')}.antt"
        if not os.path.isdir(f"{ROOT}/crates/{crate}"):
            continue
        if not os.path.exists(path):
            yield f"{crate} has no definitions {module}"
            continue
        there = set(re.findall(r"[^\s(){}.,;:]+", read(path)))
        yield from (f"{crate}.specs.{module} has no {word}" for word in words.split(", ") if word.split(" as ")[0] not in there)


def why_not(name):
    """Why a rule can't be applied, if it can't."""
    try:
        for file, pairs in parse_rule(name).items():
            apply(pairs, file, read(f"{ROOT}/crates/{file}"))
    except (BadRule, OSError, IndexError, TypeError) as why:
        return why
    return next((word for text in runs_of(name).values() for word in missing_words(text)), None)


def check_all(rules):
    """Whether each rule can be applied, and the words are there that all runs share."""
    reasons = {f"{name}.rule": why_not(name) for name in sorted(rules)}
    reasons |= {f"{name}.run": next(missing_words(run_of(name)), None) for name in WORDS}
    for file, reason in reasons.items():
        if reason:
            print(f"tests/wrong-rules/{file}: {reason}", file=sys.stderr)
    return 1 if any(reasons.values()) or not rules else 0


class Copy:
    """A copy of a crate and of those that it stands on."""

    def __init__(self, folder, source, crate):
        self.folder = folder
        lines = dict(re.findall(r"^(\w+):(.*)$", read(f"{source}/crates.txt"), re.MULTILINE))
        copied, wanted = [], [crate]
        while wanted:
            name = wanted.pop()
            if name in lines and name not in copied:
                copied.append(name)
                wanted += lines[name].split()
                shutil.copytree(f"{source}/crates/{name}", f"{folder}/crates/{name}", symlinks=True)
        write(f"{folder}/crates.txt", "".join(f"{name}:{lines[name]}\n" for name in copied))

    @contextmanager
    def edited(self, name):
        """The copy with the edits of a rule, and afterwards as before."""
        before = {}
        try:
            for file, pairs in parse_rule(name).items():
                path = f"{self.folder}/crates/{file}"
                before[path] = read(path)
                write(path, apply(pairs, file, before[path]))
            yield
        finally:
            for path, text in before.items():
                write(path, text)


class BackScratch(Copy):
    """A copy of the crates for rules of looking back."""

    crate = "history"
    words = "BackWords"

    def __init__(self, folder, source):
        super().__init__(folder, source, self.crate)
        self.judge = f"{folder}/crates/{self.crate}"
        self.modules = read(f"{self.judge}/proofs/Lib.antt")

    def check(self, runs):
        """Checks the crate with these runs, texts by module, beside its proofs."""
        written = {self.words: run_of(self.words), **runs}
        proofs = f"{self.judge}/proofs"
        for name, text in written.items():
            write(f"{proofs}/{name}.antt", text)
        write(f"{proofs}/Lib.antt", self.modules + "".join(f"pub mod {name}\n" for name in written))
        checked = Check(self.judge)
        for name in written:
            os.remove(f"{proofs}/{name}.antt")
        return checked

    def try_rule(self, name):
        """Which law refuses a rule."""
        with self.edited(name):
            check = self.check(runs_of(name))
        if not check.is_refusal:
            raise BadRule(check.refused_by)
        if wrong := [error for error in check.errors if error[0] in {f"proofs/{module}.antt" for module in runs_of(name)}]:
            raise BadRule(f"its run: {wrong[0]}")
        laws = [error for error in check.errors if not error[0].endswith("WorkedRuns.antt")]
        if not laws:
            raise BadRule("no law refuses it")
        return f"{self.crate} {check.lemma_at(*laws[0])}"

    def try_right_rules(self, names):
        """Proves the right definitions, and says of which rules the run is not refused under them."""
        return unrefused(self.check({module: text for name in names for module, text in runs_of(name).items()}), names)


class FloorScratch(BackScratch):
    """A copy of the crates for rules of floors."""

    crate = "floors"
    words = "FloorWords"


class Scratch(Copy):
    """A copy of the crates for rules of the protocol."""

    top = "safety"
    # crates below the top that must be proved
    below = ()

    def __init__(self, folder, source):
        super().__init__(folder, source, self.top)
        self.protocol = f"{folder}/crates/protocol"
        self.safety = f"{folder}/crates/safety"
        proofs = f"{ROOT}/crates/protocol/proofs"
        named = re.findall(r"^(?:pub )?mod (\w+)", read(f"{proofs}/Lib.antt"), re.MULTILINE)
        self.modules = {name: read(f"{proofs}/{name}.antt") for name in named}
        self.lemmas = self.cited_lemmas()

    def cited_lemmas(self):
        """The modules of protocol's proofs that the crates above it build on: the others are worked runs."""
        text = "".join(read(f"{at}/{name}") for crate in {"safety", *self.below, self.top}
                       for at, _, names in os.walk(f"{self.folder}/crates/{crate}")
                       if "/out" not in at for name in names if name.endswith((".antt", ".rt")))
        cited = set()
        while True:
            more = set(re.findall(r"Rattle\.protocol\.proofs\.(\w+)", text)) - cited
            if not more:
                return {name: text for name, text in self.modules.items() if name in cited}
            cited |= more
            text = "".join(self.modules[name] for name in more)

    def set_proofs(self, modules):
        """Makes these modules, texts by name, all of protocol's proofs."""
        right, proofs = f"{ROOT}/crates/protocol/proofs", f"{self.protocol}/proofs"
        shutil.rmtree(proofs)
        os.mkdir(proofs)
        for name, text in modules.items():
            write(f"{proofs}/{name}.antt", text)
            if os.path.isdir(f"{right}/{name}"):
                shutil.copytree(f"{right}/{name}", f"{proofs}/{name}")
        write(f"{proofs}/Lib.antt", "".join(f"pub mod {name}\n" for name in modules))

    def check_runs(self, runs):
        """Checks protocol with runs, texts by module, and nothing else but their words."""
        words = {"RowWords": self.modules["RowWords"], "RunWords": run_of("RunWords")} if runs else {}
        if any(module.endswith("Law") for module in runs):
            words |= {"LawWords": run_of("LawWords"), **law_modules()}
        self.set_proofs({**words, **runs})
        return Check(self.protocol)

    def check_worked_runs(self):
        self.set_proofs(self.modules)
        return Check(self.protocol)

    def check_safety(self):
        self.set_proofs(self.lemmas)
        return Check(self.safety)

    def try_rule(self, name):
        """Which proofs refuse a rule."""
        with self.edited(name):
            alone = self.check_runs(runs_of(name))
            if not alone.proved:
                raise BadRule(f"with the run alone: {alone.errors[:1] or alone.lines[-3:]}")
            checks = {"protocol": self.check_worked_runs()}
            if checks["protocol"].proved or not self.are_lemmas_refused(checks["protocol"]):
                checks["safety"] = self.check_safety()
        refused = [check for check in checks.values() if not check.proved]
        if not refused or not all(check.is_refusal for check in refused):
            raise BadRule(next((check.refused_by for check in refused if not check.is_refusal), "nothing refuses it"))
        broken = [law_of(name)] if law_of(name) else []
        return ", ".join([f"{kind} {check.refused_by}" for kind, check in checks.items() if not check.proved] + broken)

    def are_lemmas_refused(self, check):
        """Whether a check of protocol refused a lemma that safety builds on, so that there is no safety to check."""
        return any(re.match(r"proofs/(\w+)", file)[1] in self.lemmas for file, _, _ in check.errors if file.startswith("proofs/"))

    def try_right_rules(self, names):
        """Proves the right definitions, and says of which rules the run is not refused under them."""
        for check in (self.check_worked_runs(), self.check_safety()):
            if not check.proved:
                sys.exit(f"the right definitions aren't proved: {check.crate}: {(check.errors or check.lines)[:3]}")
        runs = [runs_of(name) for name in names]
        return unrefused(self.check_runs({module: text for of_one in runs for module, text in of_one.items()}), names)


class StuckScratch(Scratch):
    """A copy of the crates for rules of the protocol that are safe."""
    top = "progress"
    below = ("safety",)

    def __init__(self, folder, source):
        super().__init__(folder, source)
        self.judge = f"{folder}/crates/{self.top}"
        self.proofs = read(f"{self.judge}/proofs/Lib.antt")
        self.laws = f"{module_of(self.top)}Laws"

    def words_of(self, text):
        """The words that a text of the judge uses, texts by module, and its laws where it uses any."""
        named = [name for name in WORDS if f"{self.top}.proofs.{name}." in text]
        below = {module: words for name in named for module, words in self.words_of(run_of(name)).items()}
        laws = {self.laws: stated_laws(f"{self.top}/src/headline.rt")} if f"{self.top}.proofs.{self.laws}." in text else {}
        return below | laws | {name: run_of(name) for name in named}

    def check_below(self):
        """The checks of the crates that must be proved."""
        self.set_proofs(self.lemmas)
        return [Check(f"{self.folder}/crates/{crate}") for crate in self.below]

    def check_judge(self, laws):
        """Checks the judge with these laws, texts by module, beside its proofs."""
        self.set_proofs({**self.lemmas, "RowWords": self.modules["RowWords"]} if laws else self.lemmas)
        written, proofs = {**self.words_of("".join(laws.values())), **laws}, f"{self.judge}/proofs"
        for name, text in written.items():
            write(f"{proofs}/{name}.antt", text)
        write(f"{proofs}/Lib.antt", self.proofs + "".join(f"pub mod {name}\n" for name in written))
        checked = Check(self.judge)
        for name in written:
            os.remove(f"{proofs}/{name}.antt")
        return checked

    def try_rule(self, name):
        """Which proof of the judge refuses a rule, and what refuses it beside."""
        laws = runs_of(name, ("law",))
        with self.edited(name):
            alone = self.check_runs(runs_of(name, ("run",)))
            if not alone.proved:
                raise BadRule(f"with the run alone: {alone.errors[:1] or alone.lines[-3:]}")
            worked = self.check_worked_runs()
            for crate, check in zip(self.below, self.check_below()):
                if not check.proved:
                    raise BadRule(f"{crate} isn't proved: {check.errors[:2] or check.lines[-3:]}")
            judged = self.check_judge(laws)
        if judged.proved or not judged.is_refusal or not (worked.proved or worked.is_refusal):
            raise BadRule(judged.refused_by if not judged.proved else "nothing refuses it")
        added = {f"proofs/{module}.antt" for module in (self.laws, *WORDS, *laws)}
        if wrong := [error for error in judged.errors if error[0] in added]:
            raise BadRule(f"its law: {wrong[0]}")
        runs = [] if worked.proved else [f"protocol {worked.refused_by}"]
        proved = " and ".join(self.below) + (" is proved" if len(self.below) == 1 else " are proved")
        return ", ".join([*runs, f"{self.top} {judged.refused_by}", *([law_of(name)] if laws else [])]) + f"; {proved}"

    def try_right_rules(self, names):
        """Proves the right definitions, and says of which rules the run or the law is not refused under them."""
        for check in (self.check_worked_runs(), *self.check_below(), self.check_judge({})):
            if not check.proved:
                sys.exit(f"the right definitions aren't proved: {check.crate}: {(check.errors or check.lines)[:3]}")
        laws = {name: runs_of(name, ("law",)) for name in names}
        refused = {file for file, _, _ in self.check_judge({k: v for of_one in laws.values() for k, v in of_one.items()}).errors}
        runs = {module: text for name in names for module, text in runs_of(name, ("run",)).items()}
        standing = {name: "with the right rule its law is proved" for name in names
                    if not {f"proofs/{module}.antt" for module in laws[name]} <= refused}
        return standing | unrefused(self.check_runs(runs), names, ("run",))


class ToldScratch(StuckScratch):
    """A copy of the crates for rules of the protocol that are safe and wait for nothing, but tell clients what isn't so."""
    top = "answers"
    below = ("safety", "progress")


class VainScratch(StuckScratch):
    """A copy of the crates for rules of the protocol that are safe and wait for nothing, but commit nothing."""
    top = "commits"
    below = ("safety", "progress")


def module_of(name):
    return "".join(word.capitalize() for word in name.split("_"))


def unrefused(check, names, kinds=("run", "law")):
    """Of which rules the run is not refused, in a check of all their runs under the right definitions."""
    wanted = {name: {f"proofs/{module}.antt" for module in runs_of(name, kinds)} for name in names}
    files = {file for of_one in wanted.values() for file in of_one}
    strange = [error for error in check.errors if error[0] not in files or not error[2].startswith("`goes_wrong`: ")]
    refused = {file for file, _, _ in check.errors}
    return {name: f"with the right rule its run is not refused as it must be: {strange[:1]}" for name in names
            if not wanted[name] <= refused or wanted[name] and strange}


def try_rules(scratches, names):
    """Tries rules on as many copies at once, and says of each whether it passed."""
    began = time.monotonic()
    failures = scratches[0].try_right_rules(names)
    print(f"the right definitions: proved, in {time.monotonic() - began:.0f} s", flush=True)
    free = Queue()
    for it in scratches:
        free.put(it)

    def try_one(name):
        scratch, start = free.get(), time.monotonic()
        try:
            told, well = scratch.try_rule(name), True
            if name in failures:
                raise BadRule(failures[name])
        except (BadRule, OSError, IndexError, TypeError) as why:
            told, well = f"FAILED: {why}", False
        finally:
            free.put(scratch)
        print(f"{name}: {'refused by ' if well else ''}{told} ({time.monotonic() - start:.0f} s)", flush=True)
        return well

    with ThreadPoolExecutor(len(scratches)) as pool:
        return list(pool.map(try_one, names))


def main():
    files = [os.path.splitext(file) for file in os.listdir(HERE)]
    rules = {name for name, kind in files if kind == ".rule"}
    if strays := {name for name, kind in files if kind in (".run", ".law")} - rules - set(WORDS):
        sys.exit(f"runs without a rule: {', '.join(sorted(strays))}")
    if sys.argv[1:] == ["--check"]:
        sys.exit(check_all(rules))
    names = sys.argv[1:] or sorted(rules)
    passed = []
    for kind, judge in ((Scratch, "safety"), (StuckScratch, "progress"), (ToldScratch, "answers"), (VainScratch, "commits"),
                        (BackScratch, "history"), (FloorScratch, "floors")):
        if judged := [name for name in names if judge_of(name) == judge]:
            with tempfile.TemporaryDirectory() as folder:
                first = kind(f"{folder}/0", ROOT)
                scratches = [first, *(kind(f"{folder}/{n}", first.folder) for n in range(1, min(JOBS, len(judged))))]
                passed += try_rules(scratches, judged)
    print(f"{passed.count(True)} passed, {passed.count(False)} failed")
    sys.exit(not all(passed))


if __name__ == "__main__":
    main()
