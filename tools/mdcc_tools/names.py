"""The names that documents use, held against those of the tree.

What stands in backticks is looked at, but for blocks of code. A span, or each word of one with spaces, is the first of these:

- what OUTSIDE allows, with its reason;
- a path, where it has a slash or the suffix of a file: it ends the path of a file or folder. Absolute paths are of the machine, and
  not looked at;
- a flag, as --open: a tool or the script `mdcc` has it;
- a form, as `write_..`, `mdcc_*tests`, `is_`: some name is of this form;
- a member, as `Site::turn`: an impl, a trait, an enum, a struct or a module of the first name has the second;
- names: each is a word of code or of a tool, outside of comments and in texts too, or the name of a file, an edit or a crate, or stands
  in a block of code of the same document, or is one of SYSTEM. Code that compiles uses no name that nothing declares. Capitals alone (K,
  TURNS) stand for something else, and what begins with a digit is no name.

Names that are said to be `in` or `of` a crate or a file are declared there, and what is called an edit is one. Below a heading that
begins with crates, names and paths are those of these crates, or of one that the same paragraph names. Whatever begins as a crate does
is a crate, in blocks of code too, and a crate has its whole name.
"""
from __future__ import annotations

import fnmatch
import os
import re
from typing import Dict, Iterator, List, NamedTuple, Set, Tuple

from .tree import CODE, NAME, Tree, text_of

SUFFIXES = (*CODE, ".edit", ".json", ".md", ".py", ".txt")
CRATE = re.compile(r"\bmdcc_\w+")
FORM = re.compile(r"\w*(?:\*|\.\.)\w*|\w+_")
IN_CRATE = ("src/", "specs/", "proofs/", "must-fail/")
PATH = re.compile(r"[\w.*-]+(?:/[\w.*-]*)*")
PLACEHOLDER = re.compile(r"[A-Z][A-Z0-9]*")
MEMBER = re.compile(r"(\w+)::(?=(\w+))")
IN_WORD = re.compile(r"(?<![\w.-])[A-Za-z_]\w+")

PARAGRAPH = re.compile(r"(?m)^\S.*(?:\n(?![-#|]|\d+\. )[^\n]*\S.*)*")
SECTION = re.compile(r"#+ (?:The definitions: )?mdcc\w*(?:, mdcc\w*)*")
SPAN = re.compile(r"`([^`\n]+)`")
ALSO = r"(?:,|,?\s+and|,?\s+or)\s+"
LIST = rf"`[^`]+`(?:{ALSO}`[^`]+`)*"
PLACED = re.compile(rf"({LIST})\s+(?:in|of)\s+`(mdcc_[\w/.]+)`")
EDITS = re.compile(rf"\bedits?\s+({LIST}(?:\s+of\s+`mdcc_\w+`)?(?:(?:;\s+|{ALSO}){LIST}\s+of\s+`mdcc_\w+`)*)")

# What is right though the tree has it not. What no document says any more is a fault too.
OUTSIDE: Dict[str, str] = {
    "rattle-kit-* logic *": "what `rt version` prints",
    "13f": "a version of the kit",
    "rt *": "the kit's commands",
    "Debug": "a trait of the library",
    "File::try_lock": "a call of the library",
    "mio": "a crate that is not used",
    "net.core.rmem_max": "a setting of the system",
    "-O3": "a flag of the C compiler",
    "--help": "a flag of every tool, which argparse makes",
    "c[*]D *": "a formula",
    "N[*]D *": "a formula",
}

# Calls, programs and settings of the system, whichever documents use them.
SYSTEM = frozenset("""
    LD_PRELOAD LimitAS LimitSTACK brk callgrind chrt copytruncate dmesg fcntl flock fstat fsync ftruncate journalctl logrotate memcpy memmove
    memset mmap nft perf pread sysctl taskset F_DUPFD_CLOEXEC O_NONBLOCK
""".split())

Said = Tuple[int, str]


class Fault(NamedTuple):
    """What a document says and the tree does not have."""
    file: str
    line: int
    said: str

    def __str__(self) -> str:
        return f"{self.file}:{self.line}: {self.said}"


class Document:
    """A document: its text with blanks for blocks of code, and the words of those."""

    def __init__(self, name: str, text: str):
        self.name = name
        self.whole = text
        self.shown: Set[str] = set()
        lines, fenced = [], False
        for line in text.split("\n"):
            fence = line.startswith("```")
            if fence or fenced or line.startswith("    "):
                self.shown.update(NAME.findall(line))
                lines.append(" " * len(line))
            else:
                lines.append(line)
            fenced ^= fence
        self.text = "\n".join(lines)

    def fault(self, offset: int, said: str) -> Fault:
        return Fault(self.name, self.whole.count("\n", 0, offset) + 1, said)

    def paragraphs(self) -> Iterator[Tuple[int, str, List[str]]]:
        """Its paragraphs, list items and lines of tables: the offset, the text, and the crates whose section it is in."""
        crates: List[str] = []
        for part in PARAGRAPH.finditer(self.text):
            if part.group().startswith("#"):
                heading = SECTION.match(part.group())
                crates = re.findall(r"mdcc\w*", heading.group()) if heading else []
            yield part.start(), part.group(), crates


class Check:
    """One pass over documents, which counts spans and keeps what of OUTSIDE they needed."""

    def __init__(self, tree: Tree):
        self.tree = tree
        self.needed: Set[str] = set()
        self.spans = 0

    def faults_of(self, document: Document) -> List[Fault]:
        """All faults of a document, in the order of lines."""
        found = [document.fault(word.start(), f"no crate {word.group()}") for word in CRATE.finditer(document.whole)
                 if word.group() not in self.tree.words and not document.whole[word.end():].startswith(("*", ".."))]
        for offset, text, crates in document.paragraphs():
            found += [document.fault(offset + at, said) for at, said in self.of_paragraph(text, crates, document.shown)]
        return sorted(set(found), key=lambda fault: fault.line)

    def of_paragraph(self, text: str, crates: List[str], shown: Set[str]) -> Iterator[Said]:
        """What is wrong in a paragraph, each with its offset."""
        near = [crate for crate in dict.fromkeys([*crates, *CRATE.findall(text)]) if crate in self.tree.words_of] if crates else []
        for span in SPAN.finditer(text):
            for said in self.of_span(span.group(1), shown, near):
                yield span.start(), said
        for placed in PLACED.finditer(text):
            for span in SPAN.finditer(placed.group(1)):
                for said in self.of_placed(span.group(1), placed.group(2)):
                    yield placed.start(1) + span.start(), said
        for edits in EDITS.finditer(text):
            for at, said in self.of_edits(edits.group(1)):
                yield edits.start(1) + at, said

    def of_span(self, span: str, shown: Set[str], near: List[str]) -> Iterator[str]:
        self.spans += 1
        for allowed in OUTSIDE:
            if fnmatch.fnmatchcase(span, allowed):
                self.needed.add(allowed)
                return
        words = span.split()
        for word in words:
            yield from self.of_word(word, shown, near if len(words) == 1 else [])

    def of_word(self, word: str, shown: Set[str], near: List[str]) -> Iterator[str]:
        bare = word.rstrip(".,:;")
        if bare.startswith("/"):
            return
        if PATH.fullmatch(bare) and NAME.search(bare) and ("/" in bare or bare.endswith(SUFFIXES)):
            if not self.tree.has_path(bare):
                yield f"no file {bare}"
            elif near and bare.startswith(IN_CRATE) and not any(self.tree.has_path(f"{crate}/{bare}") for crate in near):
                yield f"no file {bare} in {' or '.join(near)}"
        elif bare.startswith("--"):
            if bare not in self.tree.flags:
                yield f"no flag {bare}"
        elif FORM.fullmatch(word) and NAME.search(word):
            if not self.tree.has_form(word):
                yield f"no name of the form {word}"
        else:
            yield from self.of_names(bare, shown, near)

    def of_names(self, word: str, shown: Set[str], near: List[str]) -> Iterator[str]:
        for owner, member in MEMBER.findall(word):
            if member not in self.tree.members.get(owner, ()):
                yield f"{owner} has no {member}"
        for name in IN_WORD.findall(word):
            if name in shown or name in SYSTEM or PLACEHOLDER.fullmatch(name):
                continue
            if name.startswith("_") and "mdcc" + name in self.tree.words_of:
                yield f"{name} for mdcc{name}"
            elif name not in self.tree.words:
                yield f"no name {name}"
            elif name == word and near and not any(name in self.tree.words_of[crate] for crate in near):
                yield f"no name {name} in {' or '.join(near)}"

    def of_placed(self, span: str, place: str) -> Iterator[str]:
        """What is wrong with a span that is said to be in a crate or a file."""
        name = span.split("::")[-1].rstrip("/")
        known = self.tree.declared.get(place, set()) | self.tree.edits.get(place, set())
        if self.tree.has_path(place) and NAME.fullmatch(name) and name not in known and not self.tree.has_path(f"{place}/{name}"):
            yield f"{place} does not declare {name}"

    def of_edits(self, text: str) -> List[Said]:
        """What is wrong with names that are called edits, each with its offset. The crate stands after those that are its own."""
        crate, found = "", []
        for span in reversed(list(SPAN.finditer(text))):
            name = span.group(1)
            if name in self.tree.words_of:
                crate = name
            elif not self.tree.has_edit(crate, name):
                found.append((span.start(), f"no edit {name}" + (f" of {crate}" if crate else "")))
        return found

    def not_needed(self) -> List[Fault]:
        """What OUTSIDE allows and no document said."""
        return [Fault(os.path.relpath(__file__), 0, f"nothing needs {allowed}") for allowed in OUTSIDE if allowed not in self.needed]
