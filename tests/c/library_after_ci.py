#!/usr/bin/env python3
"""Makes the static library of a crate over the libraries that `rt ci` has just left in crates/*/out: with the kit's `rattle build`, which proves the
crate itself again. `rt ci` proves a static library and makes no archive; `rt lib` makes it, but over libraries of its own, which it proves anew in a
checkout where only `rt ci` has run. At the top of the repository.

usage: tests/c/library_after_ci.py CRATE
"""
import os
import re
import shutil
import subprocess
import sys


def listed():
    """The libraries that each crate of crates.txt uses, by the crate's name."""
    uses = {}
    with open("crates.txt", encoding="utf-8") as text:
        for line in text:
            name, colon, deps = line.partition("#")[0].partition(":")
            if colon:
                uses[re.split(r"\s+", name.strip())[0]] = deps.split()
    return uses


def below(crate, uses, found):
    """The repository's libraries below a crate, each after those that it uses."""
    for dep in uses[crate]:
        if dep in uses and dep not in found:
            below(dep, uses, found)
            found.append(dep)
    return found


def main():
    if len(sys.argv) != 2:
        sys.exit(__doc__)
    crate, uses = sys.argv[1], listed()
    rattle = os.path.join(os.path.dirname(os.path.realpath(shutil.which("rt"))), "rattle")
    kit = os.path.dirname(os.path.dirname(rattle))
    words = [rattle, "build", "--crate-name", crate, "src/lib.rt", "--crate-type", "staticlib", "-o", f"out/lib{crate}.a"]
    words += ["--extern", f"std={kit}/rlibs/std.rlib", "-L", f"dependency={kit}/rlibs"]
    for dep in uses[crate]:
        words += ["--extern", f"{dep}=../{dep}/out/rlib/{dep}.rlib" if dep in uses else f"{dep}={kit}/rlibs/{dep}.rlib"]
    for dep in below(crate, uses, []):
        words += ["-L", f"dependency=../{dep}/out/rlib", "--links", f"{dep}="]
    words += ["--links", f"{crate}=", "--antt-project", f"{kit}/rattle/logic/antt-project.json", "--logic-built", f"{kit}/logic_built"]
    words += ["--jobs", "2", "--toolchain", f"{kit}/toolchain", "--backend", "llvm"]
    os.makedirs(f"crates/{crate}/out", exist_ok=True)
    sys.exit(subprocess.run(words, cwd=f"crates/{crate}", stdin=subprocess.DEVNULL).returncode)


main()
