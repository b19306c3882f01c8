#!/usr/bin/env python3
"""closure.py: counts the definitions of this repository's specs/ that the clauses of `server_command::command` stand on, by crate.

    bench/closure.py . [DEFINITION ..]

Definitions are those of the files below crates/*/specs; constructors and fields count with their type, and types of the code do not count.
Without definitions it begins with those that the clauses name. A name in a comment does not count."""

import glob
import os
import re
import sys
from collections import Counter

HEADS = [("server_command", "Ending", "HasEnded")] + [("server_command", "Command", name) for name in ("IsComplete", "HasCause", "IsTidy")]
WORD = re.compile(r"[A-Za-z_][\w'-]*(?:\.[A-Za-z_][\w'-]*)*")
KEYWORDS = {"pub", "abbrev", "record", "data", "unfoldable", "mutual", "inline", "where"}


def use_lines(text):
    """Each imported name or alias of a module, with the crate, the module and the name there (none for an alias)."""
    for crate, module, names, alias in re.findall(r"^(?:pub )?use Rattle\.(\w+)\.specs\.([\w.]+?)(?:\.\{([^}]*)\}| as (\w+))$", text, re.M):
        if alias:
            yield alias, (crate, module, None)
        for name in filter(None, map(str.strip, names.split(","))):
            there, _, here = name.partition(" as ")
            yield (here or there), (crate, module, there)


def passed_on(top):
    """The lines by which a crate hands on what is below it, whole: who hands it on, under which name, and where it comes from."""
    found = {}
    for path in glob.glob(f"{top}/crates/*/specs/Lib.antt"):
        for below, name, alias in re.findall(r"^pub use Rattle\.(\w+)\.specs(?:\.(\w+)| as (\w+))$", open(path, encoding="utf-8").read(), re.M):
            found[path.split("/")[-3], name or alias] = below, name
    return found


def read_module(path):
    """A module's definitions with their text, what it imports, and what it hands on."""
    text = re.sub(r"--.*", "", open(path, encoding="utf-8").read())
    uses = dict(use_lines(text))
    passed = {
        name: uses[name]
        for line in re.findall(r"^pub use .*$", text, re.M)
        for name, _ in use_lines(line)
    }
    found, inner, current, is_data, step = {}, {}, None, False, 0
    for line in text.split("\n"):
        if re.match(r"(?:pub )?(?:use|mod) ", line):
            continue
        # what stands in a block of parameters is defined as what stands outside
        block = re.match(r"( *)module _ .* where$", line)
        if block:
            step, current = len(block[1]) + 2, None
            continue
        indent = len(line) - len(line.lstrip())
        if line.strip() and indent <= step:
            step = min(step, indent)
            said = line.split()
            words = [it for it in said if it not in KEYWORDS]
            if words:
                if words[0] != current:
                    is_data = "data" in said
                current = words[0]
                found.setdefault(current, "")
        if current:
            found[current] += line + "\n"
            constructor = re.match(r"\s+(\S+) : ", line)
            if is_data and constructor and indent > step:
                inner[constructor[1]] = current
    return found, inner, uses, passed


def main():
    top = sys.argv[1] if len(sys.argv) > 1 else "."
    modules = {}
    for path in glob.glob(f"{top}/crates/*/specs/*.antt"):
        crate, module = path.split("/")[-3], os.path.basename(path)[:-5]
        modules[crate, module] = read_module(path)
    handed = passed_on(top)

    def home(crate, module, name, depth=0):
        """Where a name of a module is defined."""
        if (crate, module.split(".")[0]) in handed:
            below, again = handed[crate, module.split(".")[0]]
            return home(below, ".".join(filter(None, [again, *module.split(".")[1:]])), name, depth)
        if (crate, module) not in modules or depth > 9:
            return None
        found, inner, _, passed = modules[crate, module]
        if name in found:
            return crate, module, name
        if name in inner:
            return crate, module, inner[name]
        if name in passed:
            to = passed[name]
            return home(to[0], to[1], to[2] or name, depth + 1)
        return None

    heads = [tuple(it.split(".")) for it in sys.argv[2:]] or HEADS
    seen, left = set(), [it for it in heads]
    while left:
        at = left.pop()
        if at in seen:
            continue
        seen.add(at)
        crate, module, name = at
        found, inner, uses, _ = modules[crate, module]
        for word in set(WORD.findall(found[name])):
            first, _, rest = word.partition(".")
            to = None
            if word in found or word in inner:
                to = home(crate, module, word)
            elif first in uses:
                there = uses[first]
                to = home(there[0], there[1], there[2] or rest.split(".")[0]) if there[2] or rest else None
            elif first in found:
                to = home(crate, module, first)
            if to and to not in seen:
                left.append(to)
    by = Counter(crate for crate, _, _ in seen)
    print(f"{len(seen)} definitions in {len(by)} crates: " + ", ".join(f"{crate} {count}" for crate, count in by.most_common()))


main()
