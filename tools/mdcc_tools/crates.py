"""Crates that the documents leave out.

A reader of the folder `crates` looks up a name in the table of families, and what is promised of it in the index of one line a crate. So each
crate stands in the first, and each in the second but those of tests, of which nothing is proved.
"""
from __future__ import annotations

import os
import re
from typing import List

from .tree import text_of

FAMILIES = ("docs/CODE.md", "## All crates")
PROMISES = ("docs/PROVED.md", "## The crates, one line each")
TESTS = re.compile(r"_tests$|^mdcc_tests$")


def crates_of(root: str) -> List[str]:
    """The crates of the repository, as crates.txt has them."""
    lines = (line.partition("#")[0].strip() for line in text_of(os.path.join(root, "crates.txt")).splitlines())
    return [line.split(":")[0].split()[0] for line in lines if line]


def section(text: str, heading: str) -> str:
    """What stands below a heading of the second level, up to the next one; nothing where there is no such heading."""
    return text.partition(f"{heading}\n")[2].partition("\n## ")[0]


def left_out(root: str) -> List[str]:
    """A line for each crate that one of the two tables leaves out."""
    crates = crates_of(root)
    families = section(text_of(os.path.join(root, FAMILIES[0])), FAMILIES[1])
    promises = section(text_of(os.path.join(root, PROMISES[0])), PROMISES[1])
    rows = re.findall(r"(?m)^\| \*?`(\w+)`", promises)
    faults = [f"{FAMILIES[0]} leaves out {name}" for name in crates if f"`{name}`" not in families]
    return faults + [f"{PROMISES[0]} has {rows.count(name)} lines of {name}" for name in crates if not TESTS.search(name) and rows.count(name) != 1]
