"""A kit whose `rt try` keeps what it compiles, and compiles it faster to run.

It is the installed kit by links, but for four files. Of `rt` it has a copy, since `rt` looks for its kit where its own file lies. Its
compiler optimizes and leaves out the checks of each access of memory. Its linker leaves out what those need, and copies the program to
a place of ours. Its checker does nothing: of it `rt try` asks only for a hint.
"""
from __future__ import annotations

import os
import shutil
from typing import Tuple

COMPILER = """#!/bin/sh
for word; do
    shift
    case $word in
    -fsanitize=*) ;;
    -O?) set -- "$@" {level} ;;
    *) set -- "$@" "$word" ;;
    esac
done
exec {real} "$@"
"""
# What the checks of memory need is all that stands between the two words about whole archives.
LINKER = """#!/bin/sh
inside= linked= last=
for word; do
    shift
    case $word in
    --whole-archive) inside=1 ;;
    --no-whole-archive) inside= ;;
    *)
        if [ -z "$inside" ]; then
            set -- "$@" "$word"
        fi
        if [ "$last" = -o ]; then
            linked=$word
        fi
        ;;
    esac
    last=$word
done
{real} "$@" && cp "$linked" {kept}
"""
CHECKER = "#!/bin/sh\n"


def link_all(source: str, target: str, but: Tuple[str, ...]) -> None:
    """Makes a folder that has links to what another one has, but for these names."""
    os.makedirs(target)
    for name in os.listdir(source):
        if name not in but:
            os.symlink(os.path.join(source, name), os.path.join(target, name))


def write_tool(path: str, text: str) -> None:
    with open(path, "w", encoding="utf-8") as file:
        file.write(text)
    os.chmod(path, 0o755)


def make_kit(kit: str, target: str, kept: str, level: str) -> None:
    """Makes such a kit of the installed one, in a folder that is not there yet. Programs go to `kept`, compiled at this level (-O2)."""
    link_all(kit, target, ("bin", "toolchain"))
    link_all(f"{kit}/bin", f"{target}/bin", ("rattle", "rt", "rtlib.py"))
    for name in ("rt", "rtlib.py"):
        shutil.copy(f"{kit}/bin/{name}", f"{target}/bin/{name}")
    write_tool(f"{target}/bin/rattle", CHECKER)
    link_all(f"{kit}/toolchain", f"{target}/toolchain", ("bin",))
    tools = f"{target}/toolchain/bin"
    link_all(f"{kit}/toolchain/bin", tools, ("clang", "ld.lld"))
    write_tool(f"{tools}/clang", COMPILER.format(real=f"{kit}/toolchain/bin/clang", level=level))
    write_tool(f"{tools}/ld.lld", LINKER.format(real=f"{kit}/toolchain/bin/ld.lld", kept=kept))
