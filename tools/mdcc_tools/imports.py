"""Names that a file of code imports from a module of definitions or proofs of this repository, though the module has them not.

The prover finds them too, but only when it comes to the crate, which in a whole run may be hours later.
"""
from __future__ import annotations

import os
import re
from typing import Dict, FrozenSet, Iterator, Optional

from mdcc_tools.tree import CODE, files_below, text_of

# `use Rattle.mdcc_crate.specs.File.{names}`, in code with `ghost` before it.
IMPORT = re.compile(r"(?m)^\s*(?:pub )?(?:ghost )?use Rattle\.(mdcc\w*)\.(specs|proofs)\.([\w.]+)\.\{([^}]*)\}")
# Modules that the prover makes itself, of types and contracts.
MADE = re.compile(r"(?:^|\.)(?:declared|contracts|Goals|Given|Key)(?:\.|$)")
# A name is what stands between spaces, brackets, commas and dots.
NAME = re.compile(r"[^\s(){},.;:]+")


class Imports:
    """The imports of a repository. `count` says how many names were looked for."""

    def __init__(self, root: str):
        self.root = root
        self.count = 0
        self.names: Dict[str, Optional[FrozenSet[str]]] = {}

    def names_of(self, path: str) -> Optional[FrozenSet[str]]:
        """The names in a file, by its path from the top; None where it is not there."""
        if path not in self.names:
            whole = os.path.join(self.root, path)
            self.names[path] = frozenset(NAME.findall(text_of(whole))) if os.path.exists(whole) else None
        return self.names[path]

    def module(self, crate: str, kind: str, module: str) -> Optional[FrozenSet[str]]:
        """The names of a module: those of its file, or of that of the type whose variants it has."""
        folder = f"crates/{crate}/{kind}/"
        names = self.names_of(folder + module.replace(".", "/") + ".antt")
        if names is None and "." in module:
            outer, _, name = module.rpartition(".")
            names = self.names_of(folder + outer.replace(".", "/") + ".antt")
            if names is not None and name not in names:
                return None
        return names

    def faults_of(self, path: str) -> Iterator[str]:
        """What a file imports that is not there, by its line."""
        text = text_of(os.path.join(self.root, path))
        for found in IMPORT.finditer(text):
            crate, kind, module, names = found.groups()
            if MADE.search(module):
                continue
            where = f"{path}:{text.count(chr(10), 0, found.start()) + 1}"
            there = self.module(crate, kind, module)
            if there is None:
                yield f"{where}: no module {crate}.{kind}.{module}"
                continue
            for name in (one.split(" as ")[0].strip() for one in names.split(",")):
                self.count += 1
                if name and name not in there:
                    yield f"{where}: {crate}.{kind}.{module} has no {name}"

    def faults(self) -> Iterator[str]:
        """The same of all files of all crates."""
        for path in sorted(files_below(os.path.join(self.root, "crates"))):
            if path.endswith(CODE):
                yield from self.faults_of(os.path.relpath(path, self.root))
