#!/usr/bin/env python3
"""Writes docs/DEFINITIONS.md from the definitions in crates/*/specs and from declared types of the code.

With --check it writes nothing. Either way it fails where a public item has no sentence above it. The page isn't kept: `make docs` makes it.
"""
import re
import sys
import textwrap
from pathlib import Path

ROOT = Path(__file__).resolve().parent.parent
PAGE = ROOT / "docs" / "DEFINITIONS.md"
HEAD = ROOT / "docs" / "definitions-head.md"
# the sources whose types are words of the definitions
TYPES = ("xid/src/codes.rt", "xid/src/refusals.rt", "wire/src/message.rt", "stable_record/src/*.rt", "ballot/src/slot.rt",
         "protocol/src/*.rt")
# a definition of more lines shows its signature alone
MOST_LINES = 18

ITEM = re.compile(r"(abbrev |unfoldable )?pub (record |data )?(\S+)")
TYPE = re.compile(r"pub (enum|struct) (\w+)")


class Item:
    """A public item: its name, the sentence above it, its text, and the file and line where it stands."""

    def __init__(self, name, sentence, lines, place):
        self.name, self.sentence, self.lines, self.place = name, sentence, lines, place

    def page(self, language):
        said = textwrap.fill(f"`{self.name}`: {self.sentence}", 138, break_on_hyphens=False, break_long_words=False)
        return [*said.splitlines(), f"```{language}", *self.lines, "```", ""]


def joined(comment, mark):
    return " ".join(line.strip()[len(mark):].strip() for line in comment).strip()


def blocks(lines):
    """Runs of lines that belong together, each with the number of its first line: a blank line ends one, unless an indented line
    follows; so does a comment or a new item at the margin after other lines."""
    block, start, blank = [], 0, False
    for number, line in enumerate(lines, 1):
        if not line.strip():
            blank = True
            continue
        indented = line.startswith((" ", "}", ")"))
        begins = line.startswith("--") and not all(old.startswith("--") for old in block)
        begins = begins or bool(ITEM.match(line)) and not all(old.startswith(("--", "infix")) for old in block)
        if block and ((blank and not indented) or begins):
            yield start, block
            block = []
        if not block:
            start = number
        elif blank:
            block.append("")
        block.append(line)
        blank = False
    if block:
        yield start, block


def shown(first, lines):
    """What the page shows of an item: all of a type, and of a definition that is short; else the signature. Of a lemma that is all."""
    signature = lines[:1]
    for line in lines[1:]:
        if not line.startswith((" ", ")", "}")):
            break
        signature.append(line)
    is_type, is_definition = first.group(2), first.group(1)
    kept = lines if is_type or (is_definition and len(lines) <= MOST_LINES) else signature
    if is_definition and len(kept) < len(lines):
        kept = [*kept, "…"]
    text = [re.sub(r"\bpub ", "", line) for line in kept]
    text[0] = re.sub(r"^(abbrev|unfoldable) ", "", text[0])
    return text


def spec_file(path):
    """The head comment of a file of definitions, and its public items."""
    lines = path.read_text(encoding="utf-8").splitlines()
    head = []
    while len(head) < len(lines) and lines[len(head)].startswith("--"):
        head.append(lines[len(head)])
    items = []
    for start, block in blocks(["" if number < len(head) else line for number, line in enumerate(lines)]):
        comment = [line for line in block if line.startswith("--")]
        body = [line for line in block if not line.startswith(("--", "infix"))]
        first = ITEM.match(body[0]) if body else None
        if first and first.group(3) not in ("use", "mod"):
            at = start + block.index(body[0])
            items.append(Item(first.group(3), joined(comment, "--"), shown(first, body), f"{path.relative_to(ROOT)}:{at}"))
    if len(items) == 1 and not items[0].sentence:
        items[0].sentence = joined(head, "--")
    return joined(head, "--"), items


def declared_types(path):
    """The public enums and structs of a source file, with their comments."""
    lines = path.read_text(encoding="utf-8").splitlines()
    for number, line in enumerate(lines):
        first = TYPE.match(line)
        if not first:
            continue
        above = number
        while above and lines[above - 1].startswith(("///", "#[")):
            above -= 1
        end = number
        while not lines[end].startswith("}") and not lines[end].endswith(";"):
            end += 1
        comment = [old for old in lines[above:number] if old.startswith("///")]
        text = lines[number:end + 1]
        if first.group(1) == "struct" and not any(old.startswith("    pub ") for old in text):
            text = [f"pub struct {first.group(2)} {{ .. }}"]
        yield Item(first.group(2), joined(comment, "///"), text, f"{path.relative_to(ROOT)}:{number + 1}")


def crate_page(crate):
    """What the page says of a crate, and all its items."""
    folder = ROOT / "crates" / crate
    page, all_items = [f"## {crate}", ""], []
    source = folder / "src" / "lib.rt"
    about = [line for line in source.read_text(encoding="utf-8").splitlines() if line.startswith("//!")] if source.exists() else []
    page += [*textwrap.wrap(joined(about, "//!"), 138), ""] if about else []
    library = folder / "specs" / "Lib.antt"
    names = re.findall(r"^pub mod (\w+)", library.read_text(encoding="utf-8"), re.M) if library.exists() else []
    for name in names:
        head, items = spec_file(folder / "specs" / f"{name}.antt")
        page += [f"### {crate}/specs/{name}.antt", "", *textwrap.wrap(head, 138), ""]
        for item in items:
            page += item.page("text")
        all_items += items
    sources = sorted(path for pattern in TYPES if pattern.startswith(crate + "/") for path in (ROOT / "crates").glob(pattern))
    for path in sources:
        items = list(declared_types(path))
        if items:
            page += [f"### {path.relative_to(ROOT / 'crates')}", "", "Types of the code that the definitions use.", ""]
        for item in items:
            page += item.page("rust")
        all_items += items
    return page, all_items


def contents(page):
    """A line for each crate, with links to its files."""
    lines = []
    for line in page:
        if line.startswith("## "):
            lines.append(f"- {line[3:]}:")
        elif line.startswith("### "):
            anchor = re.sub(r"[^a-z0-9_]", "", line[4:].lower())
            comma = "" if lines[-1].endswith(":") else ","
            lines[-1] += f"{comma} [{Path(line[4:]).stem}](#{anchor})"
    return lines


def main():
    crates = [line.split(":")[0].split()[0] for line in (ROOT / "crates.txt").read_text(encoding="utf-8").splitlines()
              if line.strip() and not line.startswith("#")]
    page, missing = [], []
    for crate in crates:
        text, items = crate_page(crate)
        if items:
            page += text
        missing += [item for item in items if not item.sentence]
    page = [HEAD.read_text(encoding="utf-8").rstrip("\n"), "", *contents(page), "", *page]
    for item in missing:
        print(f"{item.place}: `{item.name}` has no sentence", file=sys.stderr)
    text = "\n".join(page).rstrip("\n") + "\n"
    if "--check" not in sys.argv[1:]:
        PAGE.write_text(text, encoding="utf-8")
    return 1 if missing else 0


if __name__ == "__main__":
    sys.exit(main())
