#!/usr/bin/env python3
"""Looks whether the documents are true to the crates: each line that docs/DEFINITIONS.md quotes stands in a definition of
the files named above it, and each name in its text in some crate; each law of docs/PROOFS.md is a function of replay_spec
and the other way round, and each call that PROOFS names is in its crate, from the bottom up. That crates.txt lists for each crate
what its files name and nothing else, each crate behind those that it stands on; and that the table of crates in
docs/ARCHITECTURE.md is that of the root files' first lines, which `quoted.py --write` writes there. That each file and each crate
of tests that a document names is there. And that each edit which
has to be refused finds the text that it changes, once. Ends with 1 where something is not. A part of the gate."""

import glob
import os
import re
import sys

TOP = os.path.dirname(os.path.dirname(os.path.abspath(__file__)))
faults = 0


def wrong(text):
    global faults
    faults += 1
    print(text)


def text_of(path):
    with open(os.path.join(TOP, path), encoding="utf-8") as file:
        return file.read()


def named_files(line):
    """The files that a line as `crate/specs/A.antt`, `B.antt` names, each in the crate before it."""
    crate, files = None, []
    for name in re.findall(r"`([^`]*\.antt)`", line):
        crate, file = re.fullmatch(r"(?:([a-z_]+)/specs/)?(\w+\.antt)", name).groups(crate)
        files.append(f"crates/{crate}/specs/{file}")
    return files


def plain(line):
    return re.sub(r"^(abbrev |unfoldable )?(pub )?", "", line.strip())


def quotes():
    stand, in_block = set(), False
    for number, line in enumerate(text_of("docs/DEFINITIONS.md").split("\n"), 1):
        if line.startswith("```"):
            in_block = not in_block
        elif not in_block and re.match(r"`[a-z_]+/specs/", line):
            stand = {plain(it) for file in named_files(line) for it in text_of(file).split("\n")}
        elif in_block and line.strip() and plain(line) not in stand:
            wrong(f"docs/DEFINITIONS.md:{number}: no definition has this line: {line}")


def words():
    files = [*glob.glob(f"{TOP}/crates/*/specs/**/*.antt", recursive=True), *glob.glob(f"{TOP}/crates/*/src/**/*.rt", recursive=True)]
    there = set(re.findall(r"\w+", "\n".join(map(text_of, files))))
    prose = re.sub(r"```.*?```", "", text_of("docs/DEFINITIONS.md"), flags=re.S)
    for name in set(re.findall(r"`(\w+)`", prose)) - there:
        wrong(f"docs/DEFINITIONS.md: no crate has {name}")


def part(text, begin, end):
    at = text.index(begin)
    return text[at : text.index(end, at)]


def names():
    proofs, source = text_of("docs/PROOFS.md"), {}
    for path in glob.glob(f"{TOP}/crates/*/src/**/*.rt", recursive=True):
        crate = os.path.relpath(path, TOP).split("/")[1]
        source[crate] = source.get(crate, "") + text_of(path)
    laws = set(re.findall(r"^\| `(\w+)`", part(proofs, "## Laws of runs", "## Laws of texts"), re.M))
    there = set(re.findall(r"^pub fn (\w+)", source["replay_spec"], re.M))
    for law in laws ^ there:
        wrong(f"docs/PROOFS.md: {law} is {'no law' if law in laws else 'a law that is not told'}")
    crate, order = None, [name for _, crates in groups() for name, _ in crates]
    for row in re.findall(r"^\| ([a-z_]*) ?\| (`.*?) \|", part(proofs, "## Crate by crate", "## Stored states"), re.M):
        if crate and row[0] and order.index(row[0]) < order.index(crate):
            wrong(f"docs/PROOFS.md: {row[0]} stands behind {crate}, and before it in crates.txt")
        crate = row[0] or crate
        for name in re.findall(r"\w+", " ".join(re.findall(r"`([^`]+)`", row[1]))):
            if not re.search(rf"\b{name}\b", source.get(crate, "")):
                wrong(f"docs/PROOFS.md: {crate} has no {name}")


def places():
    """Each file of a crate and each crate of tests that a document names is there, and each script of bench/."""
    for path in ["README.md", *sorted(os.path.relpath(it, TOP) for it in glob.glob(f"{TOP}/docs/*.md"))]:
        text = text_of(path)
        named = {f"crates/{it}" for it in re.findall(r"\b([a-z_]+/(?:src|specs|proofs)/[\w/]+\.(?:rt|antt))\b", text)}
        named |= {f"crates/{it}" for it in re.findall(r"`(?:crates/)?(test_[a-z]+|[a-z]+_(?:tests|rows))`", text)}
        named |= set(re.findall(r"\b(?:crates|bench|examples|docs)/[\w/.-]*\w", text))
        for name in sorted(named):
            if not os.path.exists(f"{TOP}/{name}"):
                wrong(f"{path}: there is no {name}")


def promises():
    """Each promise of README.md has a row in PROOFS.md, whose calls, laws, clauses and files are in the crates that it names."""
    told = len(re.findall(r"^\d+\. ", part(text_of("README.md"), "## What is promised", "## Where to read on"), re.M))
    rows = re.findall(r"^\| (\d+)\. [^|]*\| (.*) \|$", part(text_of("docs/PROOFS.md"), "| Promise |", "**Own shelves.**"), re.M)
    if [int(number) for number, _ in rows] != list(range(1, told + 1)):
        wrong(f"docs/PROOFS.md: README.md promises {told} things, and {len(rows)} have a row")
    for number, row in rows:
        named = re.findall(r"`([a-z_]+)::|of ([a-z]+_[a-z]+|shelf)\b", row)
        sources = [path for crate in {a or b for a, b in named} for path in glob.glob(f"{TOP}/crates/{crate}/src/**/*.rt", recursive=True)]
        text = "\n".join(map(text_of, sources))
        for word in {word for quoted in re.findall(r"`([^`]+)`", row) for word in re.findall(r"\w+(?:\.rt)?", quoted)} - {"main"}:
            if word.endswith(".rt"):
                there = any(os.path.basename(path) == word for path in sources)
            else:
                there = re.search(rf"\b{word}\b", text) or os.path.isdir(f"{TOP}/crates/{word}")
            if not there:
                wrong(f"docs/PROOFS.md: promise {number} names {word}, which its crates do not have")


def groups():
    """What crates.txt says: its headings, and below each the crates, with what they stand on."""
    found = []
    for line in text_of("crates.txt").split("\n"):
        if not line.strip():
            continue
        if line.startswith("#"):
            found.append((line[1:].strip(), []))
        else:
            name, _, below = line.partition(":")
            found[-1][1].append((name.split()[0], below.split()))
    return [group for group in found if group[1]]


def root_line(crate):
    """The first line of a crate's root file: what the crate is for, and for whom."""
    for root in ("lib.rt", "main.rt"):
        if os.path.isfile(f"{TOP}/crates/{crate}/src/{root}"):
            line = text_of(f"crates/{crate}/src/{root}").split("\n")[0]
            if line.startswith("//! "):
                return line[4:]
            wrong(f"crates/{crate}/src/{root}: its first line does not say what it is for")
    return ""


def table():
    rows = ["| Crate | What it is for, and for whom |", "|---|---|"]
    for heading, crates in groups():
        rows.append(f"| **{heading}** | |")
        rows += [f"| {crate} | {root_line(crate)} |" for crate, _ in crates]
    return "\n".join(rows)


def crates(writes):
    path = "docs/ARCHITECTURE.md"
    text = text_of(path)
    found = part(text, "## The crates\n", "\nBeside `src/`")
    begin = found.index("| Crate |") if "| Crate |" in found else found.index("TABLE")
    kept = found[begin:].rstrip("\n")
    if writes and kept != table():
        with open(os.path.join(TOP, path), "w", encoding="utf-8") as file:
            file.write(text.replace(kept, table(), 1))
    elif kept != table():
        wrong(f"{path}: the table of crates is not that of crates.txt and the root files: bench/quoted.py --write")


def names_in(crate):
    """The words that may name a crate in a crate's files, in code, definitions and proofs."""
    found = set()
    for at, _, files in [it for folder in ("src", "specs", "proofs") for it in os.walk(f"{TOP}/crates/{crate}/{folder}")]:
        for file in files:
            text = re.sub(r"//[^\n]*" if file.endswith(".rt") else r"--[^\n]*", "", text_of(f"{at}/{file}"))
            found |= set(re.findall(r"\bRattle\.(\w+)\.", text))
            if file.endswith(".rt"):
                found |= set(re.findall(r"\b(\w+)::", text))
    return found


def order():
    listed = {crate: below for _, crates in groups() for crate, below in crates}
    seen = set()
    for crate, below in listed.items():
        named = names_in(crate)
        for name in below:
            if name in listed and name not in seen:
                wrong(f"crates.txt: {crate} stands before {name}, on which it stands")
            if name not in named:
                wrong(f"crates.txt: no file of {crate} names {name}")
        for name in named & set(listed) - {crate, *below}:
            wrong(f"crates.txt: {crate} lacks {name}, which its files name")
        seen.add(crate)
    there = {it for it in os.listdir(f"{TOP}/crates") if os.path.isdir(f"{TOP}/crates/{it}/src")}
    for crate in there ^ set(listed):
        wrong(f"crates.txt: {crate} is {'not there' if crate in listed else 'not listed'}")


def edits():
    for path in sorted(glob.glob(f"{TOP}/edits/*/*.edit") + glob.glob(f"{TOP}/crates/*/must-fail/*.edit")):
        name = os.path.relpath(path, TOP)
        crate, texts, file, old = name.split("/")[1], {}, None, None
        for line in text_of(path).split("\n"):
            key, _, value = line.partition(": ")
            if key == "file":
                file = value.strip()
                texts.setdefault(file, text_of(f"crates/{crate}/{file}"))
            elif key == "old":
                old = value
            elif key.rstrip(":") == "new" and old is not None:
                if texts[file].count(old) != 1:
                    wrong(f"{name}: {file} has {texts[file].count(old)} times: {old}")
                texts[file] = texts[file].replace(old, value)


quotes()
words()
names()
places()
promises()
crates("--write" in sys.argv[1:])
order()
edits()
print(f"{faults} wrong")
sys.exit(1 if faults else 0)
