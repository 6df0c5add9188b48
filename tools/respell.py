#!/usr/bin/env python3
"""Brings this repository's own definitions, lemmas, fields and constructors to today's spelling: words in snake case.

usage: tools/respell.py [--list]      at the top of the checkout; --list prints the names and what they become, and writes nothing

A name that a file of specs/ or of proofs/ declares, and that has a hyphen or is in camel case, becomes snake case: point-in and
pointIn both become point_in. It is turned where it stands for that declaration: in the file that declares it, in files that import
it from a crate of this repository, and behind a dot, where it is a field. Contracts, edits and the documents' code words follow.
Names of src/, strings, inputs and outputs are left alone, and so are names that Rattle makes (they stand only in proofs/F/).
Names that fall together are printed.
"""
import collections
import glob
import os
import re
import sys

CRATES = set(os.listdir("crates"))
# A word of antt: a run of what is no space, bracket, or mark of punctuation.
WORD = re.compile(r"[^\s(){}\[\].,;`\"]+")
HEAD = re.compile(r"^\s*((?:(?:abbrev|unfoldable|pub|private)\s+)*)([A-Za-z_][^\s(){}:,=]*)\s*:\s")
TYPE = re.compile(r"^\s*(?:(?:abbrev|unfoldable|pub|private)\s+)*(?:record|data)\s+(?:pub\s+)?([^\s(){}:]+)")
CASE = re.compile(r"^\s*\|\s*([A-Za-z_][^\s(){}:]*)\s*:")
USE = re.compile(r"^\s*(?:ghost\s+)?(?:pub\s+)?use\s+([^\s{;]+?)(?:\.\{([^}]*)\})?(?:\s+as\s+(\S+?))?;?\s*$", re.M)
# Names that would fall together with the function that they speak of.
BY_HAND = {"is-neg": "is_below_zero", "end-a": "end_a_low", "end-b": "end_b_low", "in-float": "in_float_lem", "inOrder": "ordered_rows", "baseArea": "area_of_base", "last-of": "last_of_lem"}


def odd(x):
    # A hyphen joins a word to an operator's sign in std's own way, as in add-*: such a name stays.
    if re.search(r"-[^A-Za-z0-9]", x) or x.endswith("-") or not re.match(r"^[A-Za-z_]", x):
        return False
    return "-" in x or bool(re.match(r"^[a-z][A-Za-z0-9_]*[A-Z]", x)) or bool(re.search(r"_[A-Z]", x))


def snake(x):
    if x in BY_HAND:
        return BY_HAND[x]
    x = re.sub(r"([a-z0-9])([A-Z])", lambda m: m.group(1) + "_" + m.group(2), x.replace("-", "_"))
    head, rest = re.match(r"^([A-Z]*)(.*)$", x).groups()
    # Capitals behind the first word are words' first letters; a capital that begins a lemma's name is a type's name and stays.
    return head + re.sub(r"(?<=_)([A-Z]+)(?=_|$|[a-z0-9'])", lambda m: m.group(1).lower(), rest)


def read(p):
    with open(p, encoding="utf-8") as f:
        return f.read()


def code(line):
    return re.split(r"(?:^|\s)--(?:\s|$)", line)[0]


def declared(text):
    names, fields = set(), set()
    for line in text.split("\n"):
        line = code(line)
        m = TYPE.match(line)
        if m:
            names.add(m.group(1))
            continue
        m = CASE.match(line)
        if m:
            names.add(m.group(1))
            continue
        m = HEAD.match(line + " ")
        if m and not line.lstrip().startswith(("use ", "module ", "let ")):
            names.add(m.group(2))
            if line.startswith(" "):
                fields.add(m.group(2))
    return names, fields


def imported(text):
    """The names that a file has from modules of this repository, and the short names under which it has whole modules."""
    names, others, modules = set(), set(), set()
    for m in USE.finditer(text):
        own = m.group(1).startswith("Rattle.") and m.group(1).split(".")[1] in CRATES
        for x in (m.group(2) or "").split(","):
            x = x.strip().split(" as ")[0].strip()
            if x:
                (names if own else others).add(x)
        if m.group(3) and own:
            modules.add(m.group(3))
    return names, others, modules


def antt():
    for p in sorted(glob.glob("crates/*/specs/**/*.antt", recursive=True) + glob.glob("crates/*/proofs/**/*.antt", recursive=True)):
        yield p


def made_by_rattle(p):
    """Whether p is the proof of a function, of whose names Rattle makes the most."""
    return os.path.basename(p) in ("Proof.antt", "Invariants.antt", "Answers.antt") and re.match(r"crates/[^/]+/proofs/.+/", p) is not None


def main():
    own, fields, by_file = {}, set(), {}
    for p in antt():
        n, f = declared(read(p))
        by_file[p] = n
        if not made_by_rattle(p):
            for x in n:
                if odd(x):
                    own.setdefault(x, set()).add(p)
            fields |= {x for x in f if odd(x)}
    # Where a lemma is named as the function that it is about, as edge-list beside edgeList, it gets the ending _lem.
    becomes = collections.defaultdict(set)
    for x in own:
        becomes[snake(x)].add(x)
    for several in becomes.values():
        if len(several) > 1:
            for x in several:
                if "-" in x:
                    BY_HAND[x] = snake(x) + "_lem"
    if "--list" in sys.argv:
        for x in sorted(own):
            print(x, snake(x))
        return

    def turn(text, here):
        names, others, modules = imported(text)
        known = ({x for x in names if x in own} | {x for x in here if x in own}) - (others - names)

        def one(m):
            x = m.group(0)
            if x not in own:
                return x
            before = text[: m.start()]
            if before.endswith("."):
                q = re.search(r"([^\s(){}\[\].,;]+)\.$", before)
                whole = re.search(r"Rattle\.([a-z_0-9]+)\.[A-Za-z_0-9.+]*$", before)
                if x in fields or (q and q.group(1) in modules) or (whole and whole.group(1) in CRATES):
                    return snake(x)
                return x
            return snake(x) if x in known or x in fields and x not in others else x

        return WORD.sub(one, text)

    changed = 0
    for p in list(antt()):
        text = read(p)
        here = by_file[p] if not made_by_rattle(p) else set()
        new = turn(text, here)
        words = set(WORD.findall(text))
        for x in words & set(own):
            if snake(x) in words and snake(x) != x and x in (here | imported(text)[0]):
                print(f"together: {p}: {x} and {snake(x)}")
        if new != text:
            changed += 1
            open(p, "w", encoding="utf-8").write(new)
    for p in sorted(glob.glob("crates/*/src/**/*.rt", recursive=True)):
        text = read(p)
        new = turn(text, set())
        if new != text:
            changed += 1
            open(p, "w", encoding="utf-8").write(new)
    # An edit's text is turned as the file that it edits: the names that the file declares or imports, and fields.
    for p in sorted(glob.glob("crates/*/must-fail/*.edit")):
        text = read(p)
        m = re.search(r"^file: (\S+)", text, re.M)
        target = os.path.join(os.path.dirname(os.path.dirname(p)), m.group(1))
        names = imported(read(target))[0] | set(by_file.get(target, set())) if os.path.exists(target) else set()
        turned = {snake(x): x for x in own}
        known = {turned.get(x, x) for x in names} | fields
        new = "\n".join(
            WORD.sub(lambda w: snake(w.group(0)) if w.group(0) in own and w.group(0) in known | names else w.group(0), line)
            if line.startswith(("old: ", "new: ")) else line
            for line in text.split("\n"))
        if new != text:
            changed += 1
            open(p, "w", encoding="utf-8").write(new)
    # In the documents only code words, between backquotes, are turned.
    for p in ["README.md"] + sorted(glob.glob("docs/*.md")):
        text = read(p)
        new = re.sub(r"`[^`\n]+`", lambda m: WORD.sub(lambda w: snake(w.group(0)) if w.group(0) in own else w.group(0), m.group(0)), text)
        if new != text:
            changed += 1
            open(p, "w", encoding="utf-8").write(new)
    print(f"respell: {len(own)} names, {changed} files")


main()
