"""The names that the files of this repository have: of code, of the tools, and of files."""
from __future__ import annotations

import fnmatch
import os
import re
from typing import Dict, Iterator, List, Set

NOT_SOURCES = ("out", "__pycache__", ".git")
CODE = (".rt", ".antt")
NAME = re.compile(r"[A-Za-z_]\w*")
FLAG = re.compile(r"--[a-z][a-z-]+")
COMMENTS = {".rt": re.compile(r"//.*"), ".antt": re.compile(r"--.*")}

# What code declares: items and clauses, and by the place in their line fields and variants.
DECLARED = {
    ".rt": re.compile(r"""(?mx)
        \b(?:fn|struct|enum|trait|type|const|static|mod|union|ghost|ensures|requires)\s+(\w+)
        | ^\s+(?:pub(?:\(\w+\))?\s+)?([a-z_]\w*):\s
        | ^\s+([A-Z]\w*)(?:\(.*\)|\s\{)?,?$"""),
    ".antt": re.compile(r"(?m)^\s*(?:(?:abbrev|pub|record|data|mod|unfoldable)\s+)*([A-Za-z_]\w*)(?=\s*[:({]|\s+where|\s*$)"),
}
# What has members, up to a brace in the first column.
OWNER = re.compile(r"(?m)^(?:pub(?:\(\w+\))? )?(?:impl(?:<[^{]*?>)? (?:[^{]*? for )?|trait |enum |struct |mod )(\w+)[^;{]*\{")


def text_of(path: str) -> str:
    with open(path, encoding="utf-8", errors="replace") as file:
        return file.read()


def files_below(path: str) -> Iterator[str]:
    """All files below a folder, but for what was built."""
    for folder, folders, files in os.walk(path):
        folders[:] = [name for name in folders if name not in NOT_SOURCES]
        yield from (os.path.join(folder, name) for name in files)


def declared_in(text: str, suffix: str) -> Set[str]:
    """The names that a text of code declares."""
    found = DECLARED[suffix].findall(text)
    return set(found) if suffix == ".antt" else {name for names in found for name in names if name}


class Tree:
    """The names of a repository.

    `words` are all words of its code and tools, comments and proofs left out, and the names of all files; `words_of` has them for
    each crate. `paths` are the ends of all paths, those of code without their suffix too. `declared` says what each crate and each
    of its files declares, `edits` which must-fail edits a crate has, `members` what belongs to a type, `flags` what the tools take.
    """

    def __init__(self, root: str):
        self.words: Set[str] = set()
        self.words_of: Dict[str, Set[str]] = {}
        self.paths: Set[str] = set()
        self.declared: Dict[str, Set[str]] = {}
        self.edits: Dict[str, Set[str]] = {}
        self.members: Dict[str, Set[str]] = {}
        self.flags: Set[str] = set()
        for path in files_below(root):
            self._take(path, os.path.relpath(path, root))
        for crate, words in self.words_of.items():
            words.add(crate)
            self.words |= words

    def _take(self, file: str, path: str) -> None:
        stem, suffix = os.path.splitext(path)
        parts = path.split("/")
        self._take_path(parts)
        if suffix in CODE:
            self._take_path(stem.split("/"))
        if parts[0] == "crates" and len(parts) > 2:
            self.words_of.setdefault(parts[1], set()).add(os.path.basename(stem))
            if suffix == ".edit":
                self.edits.setdefault(parts[1], set()).add(os.path.basename(stem))
            elif suffix in CODE and "proofs" not in parts:
                self._take_code(parts[1], "/".join(parts[1:]), suffix, COMMENTS[suffix].sub("", text_of(file)))
        else:
            self.words.add(os.path.basename(stem))
            if suffix != ".md":
                self._take_tool(text_of(file))

    def _take_path(self, parts: List[str]) -> None:
        for first in range(len(parts)):
            self.paths.update("/".join(parts[first:last]) for last in range(first + 1, len(parts) + 1))

    def _take_tool(self, text: str) -> None:
        self.words.update(NAME.findall(text))
        self.flags.update(FLAG.findall(text))

    def _take_code(self, crate: str, path: str, suffix: str, text: str) -> None:
        self.words_of[crate].update(NAME.findall(text))
        declared = declared_in(text, suffix)
        self.declared[path] = self.declared[path[:-len(suffix)]] = declared
        self.declared.setdefault(crate, set()).update(declared)
        if suffix == ".rt":
            for owner in OWNER.finditer(text):
                body = text[owner.end():text.find("\n}", owner.end())]
                self.members.setdefault(owner.group(1), set()).update(declared_in(body, suffix))

    def has_path(self, path: str) -> bool:
        """Whether it ends the path of a file or a folder, or begins such an end. A capital alone stands for any name."""
        path = re.sub(r"\b[A-Z]\b", "*", path[2:] if path.startswith("./") else path).rstrip("/")
        return bool(fnmatch.filter(self.paths, path)) if "*" in path else path in self.paths

    def has_form(self, pattern: str) -> bool:
        """Whether a name is of this form: `..` and `*` stand for anything, and an underscore at the end is followed by more."""
        return bool(fnmatch.filter(self.words, pattern.replace("..", "*") + ("?*" if pattern.endswith("_") else "")))

    def has_edit(self, crate: str, name: str) -> bool:
        """Whether this crate has the edit, or, where none is named, any has it."""
        return any(name in edits for owner, edits in self.edits.items() if crate in ("", owner))
