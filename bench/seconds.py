#!/usr/bin/env python3
"""seconds.py FOLDER: watches the provers that work in FOLDER/crates until none has for two minutes, and prints the table bench/seconds.txt:

    bench/seconds.py . > /tmp/seconds & ./hovgyelit check -- examples/shop.scm

A crate has the processor seconds of its first prover and of what that started: its proof. Those of the later one of script_server are the
step that links the program. Crates that were not seen keep the figures that they had."""

import os
import sys
import time

TOP = os.path.dirname(os.path.dirname(os.path.abspath(__file__)))
PROGRAM, TICKS = "script_server", os.sysconf("SC_CLK_TCK")


def provers(folder):
    """(process, its start) to (crate, processor seconds) of each prover that works below the folder."""
    found = {}
    for process in filter(str.isdigit, os.listdir("/proc")):
        try:
            at = os.readlink(f"/proc/{process}/cwd")
            said = open(f"/proc/{process}/stat", encoding="utf-8").read()
        except OSError:
            continue
        name, fields = said[said.index("(") + 1 : said.rindex(")")], said[said.rindex(")") + 2 :].split()
        if name == "rattle" and at.startswith(f"{folder}/crates/"):
            used = sum(int(it) for it in fields[11:15]) / TICKS
            found[process, fields[19]] = at.split("/crates/")[1].split("/")[0], used
    return found


def rows_of(path):
    with open(path, encoding="utf-8") as file:
        lines = [line.rstrip("\n") for line in file]
    rows = [line.split("#")[0].split() for line in lines]
    return [line for line in lines if line.startswith("#")], {row[0]: float(row[1]) for row in rows if len(row) == 2}


def program_crates():
    """The crates that the program stands on and its own, in the order of crates.txt, lowest first."""
    lines = [line.split("#")[0].partition(":") for line in open(f"{TOP}/crates.txt", encoding="utf-8")]
    below = {name.strip(): names.split() for name, _, names in lines if name.strip()}
    found, left = set(), [PROGRAM]
    while left:
        name = left.pop()
        if name in below and name not in found:
            found.add(name)
            left += below[name]
    return [name for name in below if name in found]


def main(folder):
    seen, quiet = {}, 0
    while quiet < 120:
        now = provers(folder)
        seen.update(now)
        quiet = 0 if now or not seen else quiet + 2
        time.sleep(2)
    head, taken = rows_of(f"{TOP}/bench/seconds.txt")
    first = {}
    for (_, begun), (crate, used) in sorted(seen.items(), key=lambda it: int(it[0][1])):
        first.setdefault(crate, used)
        if crate == PROGRAM:
            taken["link"] = used
    taken.update(first)
    print("\n".join([*head, *(f"{name} {taken[name]:.0f}" for name in [*program_crates(), "link"] if name in taken)]))


if len(sys.argv) != 2:
    sys.exit(__doc__)
main(os.path.realpath(sys.argv[1]))
