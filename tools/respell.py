#!/usr/bin/env python3
"""Brings the repository's own definitions and lemmas to today's spelling: words in snake case, types and modules in camel case.

usage: tools/respell.py        at the top, once, right after port.py; rewrites crates/*/specs, crates/*/proofs, the clauses of crates/*/src, and
                               what README.md and docs/ name between backticks
       tools/respell.py --list the names, old and new

It renames what specs/ and proofs/*.antt declare: `withBit` becomes `with_bit`, `read-gate` becomes `read_gate`. A lemma that would get the
name of a definition gets `_lem`; in Unique.antt, whose theorems are named for functions, it does not. A fact stays a type: a definition
that is a type keeps its capital. Names of the library, of functions in src/, of registers and pins (PGCR, H12), and strings stay. Of
the names that a file has for itself (let, where, arguments, imports under another name) those in LOCAL are turned too.
"""
import collections
import os
import re
import sys

ROOT = "crates"
DECLARED = re.compile(r"^( {0,2}| +(?=pub ))((?:pub |abbrev |unfoldable )*)([^\s:(){};,.]+)((?: [^\s:(){};,.]+)*) :(?: |$)")
TYPE = re.compile(r"^ {0,2}(?:pub |abbrev )*(?:record|data) ([^\s:(){}]+)")
USE = re.compile(r"use ([^\s{;]+)\.\{([^}]*)\}")
PORTED = """
above-zero add-at all-there all-true and-left and-right answerOf any-below any-way anyOf as-read at-a at-b at-c
at-first at-level at-most at-zero atStart bitAt bitOf bits-of bitsOf by-kind by-row byte-fits byte-of byteAt byteOf
bytes-back cellsOf chosenOf close-spec countOf counted-spec cut-short cutAt dataOf either-side endedOf every-call
falls-at few-bytes field-lt fieldAt fieldOf fill-one first-edge first-spec firstOf fits-on fixedOf flag-same
four-bytes from-first from-start goes-on goes-over kindAt kindOf lastOf lent-row levels-sound linkAt linkOf main-spec
modeOf nextAt no-edge no-other no-pin no-step noWord not-valid number-lt number-same numberAt numberOf numbers-fit
of-none of-spec offsetOf one-bit one-last one-more one-number one-up openedOf opensAt or-left or-right out-at
over-zero packed-lt past-end past-first past-three peek-spec placesOf put-spec putOf ranges-in read-keeps read-kept
read-past read-spec read-stays readOf rowOf run-length run-spec runOf runs-by same-after same-at same-bits
same-length same-way scaled-fits side-by-side sizeOf so-far sourceOf step-keeps stepOf steps-on storedAt takenOf
there-and-back too-long too-many two-bytes up-to validOf valueAt was-read wayOf with-byte with-first withC withFlags
wordAt wordOf write-keeps write-moves write-spec writtenOf
""".split()  # what port.py respelled, for the pages
LOCAL = """
resetTimer portCells linkClocks timerRegisters timerOpenings soundLink resetParallel linkValidity linkRead linkLevel lentOpenings lentAnswers
timerValidity byPin withOutsideC withDirectionC timerAnswer timerAfter soundParallel secondLink portAnswer parallelValidity interruptsOf firstLink
answers-are by-gate events-same first-of-byte kind-of level-at made-answers made-openings pin-kind same-rests tcr-kind tin-kind write-kind
""".split()  # names that a file has for what it imports, for arguments, and under where and let
FACTS = {"soundUnder": "IsSoundUnder", "wellFormed": "IsWellFormed", "allWellFormed": "AllWellFormed"}
TOKEN = re.compile(r"[^\s(){}\[\];,.:«»\"`]+")


def files(end):
    for folder, dirs, names in os.walk(ROOT):
        dirs[:] = sorted(d for d in dirs if d not in ("out", "must-fail"))
        for name in sorted(names):
            if name.endswith(end):
                yield os.path.join(folder, name)


def of_function(path):
    """A file of one function's proof: its names are the check's."""
    return path.endswith("/Proof.antt") or "/Proof/" in path


def words(name):
    parted = re.sub(r"([a-z0-9])([A-Z])", r"\1_\2", re.sub(r"([A-Z])([A-Z][a-z])", r"\1_\2", name))
    return parted.replace("-", "_").lower()


def main():
    crates = {line.split(":")[0].strip() for line in open("crates.txt")}
    declared = collections.defaultdict(set)
    library, types = set(), set()
    for path in files(".antt"):
        text = open(path, encoding="utf-8").read()
        for module, items in USE.findall(text):
            parts = module.split(".")
            if parts[0] != "Rattle" or parts[1] not in crates:
                library |= {i.strip().split(" as ")[0] for i in items.split(",")}
        if of_function(path):
            continue
        for line in text.split("\n"):
            kind = TYPE.match(line)
            if kind:
                types.add(kind.group(1))
                continue
            found = DECLARED.match(line)
            if found and found.group(3) not in ("use", "let", "where"):
                for name in [found.group(3)] + found.group(4).split():
                    declared[name].add(path)
    taken = set(declared) | types | library
    new = {}
    rename = [n for n in sorted(declared) if n not in library and n not in types and re.search("[A-Z-]", n) and n[0].islower()]
    for name in rename:  # definitions first, so that a lemma gives way
        if re.search("[A-Z]", name):
            to = words(name)
            new[name] = to + "_of" if to in taken and to not in ("first_edge", "with_first", "with_byte") else to
    new.update(FACTS)
    new.update((name, words(name)) for name in LOCAL)
    given = set(new.values())
    for name in rename:
        if name in new:
            continue
        to = words(name)
        new[name] = to + "_lem" if to in taken or to in given else to
    if "--list" in sys.argv:
        for a, b in sorted(new.items()):
            print(a, b, *sorted(declared[a]))
        return
    for path in list(files(".antt")) + list(files(".rt")):
        text = open(path, encoding="utf-8").read()
        unique = path.endswith("/Unique.antt")

        def turned(line):
            def one(found):
                name = found.group(0)
                if name not in new:
                    return name
                if unique and "-" in name:
                    return words(name)
                return new[name]

            return TOKEN.sub(one, line)

        out = []
        for line in text.split("\n"):
            start = line.lstrip()
            if path.endswith(".rt") and start.startswith("//"):
                out.append(line)
            else:
                out.append(turned(line))
        after = "\n".join(out)
        if after != text:
            open(path, "w", encoding="utf-8").write(after)
    new = {**{name: words(name) for name in PORTED}, **new}
    lists = {name.rsplit(".", 1)[0] for name in os.listdir("tests/lists.d")}
    pages = ["README.md"] + [os.path.join(f, n) for f, _, names in os.walk("docs") for n in sorted(names) if n.endswith(".md")]
    for path in pages:
        text = open(path, encoding="utf-8").read()

        def quoted(found):
            return TOKEN.sub(lambda m: m.group(0) if m.group(0) in lists else new.get(m.group(0), m.group(0)), found.group(0))

        after = re.sub(r"`[^`\n]+`", quoted, text)
        if after != text:
            open(path, "w", encoding="utf-8").write(after)


main()
