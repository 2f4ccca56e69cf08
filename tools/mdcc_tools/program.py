"""Where the program stands once it is built: the proved one, or where there is only that one the one that was compiled without proofs."""
import os

TOP = os.path.normpath(os.path.join(os.path.dirname(os.path.abspath(__file__)), "..", ".."))
PROVED = os.path.join(TOP, "crates", "mdcc", "out", "mdcc")
QUICK = os.path.join(TOP, "out", "quick", "mdcc")
PROGRAM = QUICK if os.path.exists(QUICK) and not os.path.exists(PROVED) else PROVED
