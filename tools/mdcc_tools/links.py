"""Links of documents that lead nowhere: to a file that is not there, or to a heading that a document has not."""
from __future__ import annotations

import os
import re
from typing import Dict, Iterator, List, Set

from .names import Document, Fault
from .tree import text_of

LINK = re.compile(r"\]\(([^)\s]+)\)")
HEADING = re.compile(r"(?m)^#+ (.*)$")


def anchor_of(heading: str) -> str:
    """The name by which a link finds a heading: its words in small letters, with hyphens between them, and no other signs."""
    return re.sub(r"[^\w\- ]", "", heading.strip().lower()).replace(" ", "-")


class Links:
    """The links of a repository's documents. `count` says how many were followed."""

    def __init__(self, root: str):
        self.root = root
        self.count = 0
        self.anchors: Dict[str, Set[str]] = {}

    def anchors_of(self, path: str) -> Set[str]:
        """The headings of a document, by its path from the top."""
        if path not in self.anchors:
            self.anchors[path] = set(map(anchor_of, HEADING.findall(text_of(os.path.join(self.root, path)))))
        return self.anchors[path]

    def is_good(self, document: str, link: str) -> bool:
        """Whether a link of a document leads somewhere in the repository."""
        path, _, anchor = link.partition("#")
        to = os.path.normpath(os.path.join(os.path.dirname(document), path)) if path else document
        return os.path.exists(os.path.join(self.root, to)) and (not anchor or not to.endswith(".md") or anchor in self.anchors_of(to))

    def faults_of(self, document: Document) -> Iterator[Fault]:
        for found in LINK.finditer(document.text):
            link = found.group(1)
            if "://" not in link:
                self.count += 1
                if not self.is_good(document.name, link):
                    yield document.fault(found.start(), f"a link leads nowhere: {link}")

    def faults(self, documents: List[Document]) -> List[Fault]:
        return [fault for document in documents for fault in self.faults_of(document)]
