"""The names of public definitions, each of which should stand in one file of one crate.

A reader who meets a name looks it up by that name alone: where two definitions share it, each page and each proof that says it must be
read with its imports. So a new definition takes a name that no other has, in whole words that say what it is. Those that still share one
are few, and may not become more: where a definition and a function of one name say the same in two crates, both have kept it.
"""
from __future__ import annotations

import glob
import os
import re
from typing import Dict, List, Set

from .tree import text_of

# How many names may stand in two files or more: lower it where one is given up.
MOST_SHARED = 42

# A definition with its type or its parameters, in the first column. What is private is no matter of other files.
DEFINITION = re.compile(r"(?m)^(?:abbrev |unfoldable )?pub (?:(?:abbrev|record|data) )?(?!use\b|mod\b)([^\s:(){}]+)\s*[:({]")


def shared_names(root: str) -> Dict[str, List[str]]:
    """The names that are defined in two files of definitions or more, each with these files, from the top of the repository."""
    files: Dict[str, Set[str]] = {}
    for path in glob.glob(os.path.join(root, "crates", "*", "specs", "**", "*.antt"), recursive=True):
        for name in DEFINITION.findall(text_of(path)):
            files.setdefault(name, set()).add(os.path.relpath(path, root))
    return {name: sorted(places) for name, places in sorted(files.items()) if len(places) > 1}


def too_many(shared: Dict[str, List[str]], most: int = MOST_SHARED) -> List[str]:
    """A line for each shared name, where there are more than may be."""
    return [f"{name} is defined in {', '.join(places)}" for name, places in shared.items()] if len(shared) > most else []
