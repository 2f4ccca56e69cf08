"""The C sources of the tools (`tools/native`), compiled where they are needed, each at most once in a process."""
import functools
import os
import shutil
import subprocess
import tempfile

SOURCES = os.path.normpath(os.path.join(os.path.dirname(os.path.abspath(__file__)), "..", "native"))


class NotCompiled(Exception):
    """There is no compiler, or it refused a source."""


@functools.lru_cache(maxsize=None)
def made_folder():
    """A folder for what is compiled. It goes with the process."""
    return tempfile.TemporaryDirectory(prefix="mdcc-compiled-")


@functools.lru_cache(maxsize=None)
def compiled(name, *flags):
    """The path of what `cc` makes of `tools/native/NAME.c`."""
    compiler = shutil.which(os.environ.get("CC", "cc"))
    if compiler is None:
        raise NotCompiled(f"no cc is there, which compiles tools/native/{name}.c")
    made = os.path.join(made_folder().name, name)
    words = [compiler, "-O2", "-U_FORTIFY_SOURCE", "-Wall", "-Wextra", "-o", made, *flags, os.path.join(SOURCES, f"{name}.c")]
    done = subprocess.run(words, capture_output=True)
    if done.returncode != 0:
        raise NotCompiled(f"cc refused tools/native/{name}.c: {done.stderr.decode(errors='replace')}")
    return made


def library(name):
    """The path of a library that is loaded before a program (LD_PRELOAD)."""
    return compiled(name, "-shared", "-fPIC", "-ldl")
