#!/usr/bin/env python3
"""Respells the repository's own definitions and lemmas in snake case.

Run once at the top of the repository, after the kit's script that turns an older repository. Types, facts and modules keep their capital,
names of src/ stay, and generated names are left alone. Prints each new name, and on standard error what may fall together.
"""
import collections
import glob
import re
import sys

HEAD = re.compile(r"^(?:(?:abbrev|unfoldable|pub) )*([^\s:(){}]+) *:( |$)")
INNER = re.compile(r"^  (?:pub )?([^\s:(){}]+) *:( |$)")
WITHIN = re.compile(r"^( +)(?:(?:abbrev|unfoldable|pub) )*([^\s:(){}]+) *:( |$)")
TYPE = re.compile(r"^(?:pub )?(record|data) (\S+)")
WORD = re.compile(r"[^\W\d][\w'-]*")


def declared(path):
    """What a file declares at its top, in records and in types: (name, kind)."""
    found, inner = [], None
    lines = open(path).read().split("\n")
    for line in lines:
        if not line.strip() or line.startswith("--"):
            continue
        opened = TYPE.match(line)
        if opened:
            inner = opened.group(1)
            found.append((opened.group(2), "type"))
            continue
        if not line.startswith(" "):
            inner = None
            head = HEAD.match(line)
            if head and not line.startswith("use "):
                found.append((head.group(1), "def"))
        elif inner:
            field = INNER.match(line)
            if field:
                found.append((field.group(1), inner))
        else:
            # in a block of a module or of a definition: what is declared and then defined
            within = WITHIN.match(line)
            if within and any(re.match(re.escape(within.group(1) + within.group(2)) + r"( .*)? =( |$)", l) for l in lines):
                found.append((within.group(2), "def"))
    return found


def snake(name):
    return re.sub(r"(?<=[a-z0-9])(?=[A-Z])", "_", name).lower()


def respelled(name):
    """Snake case; a dash stays only before the `determined` that follows a function's name."""
    base, last = (name[: -len("-determined")], "-determined") if name.endswith("-determined") else (name, "")
    return "_".join(snake(word) for word in base.split("-")) + last


def main():
    files = sorted(glob.glob("crates/*/specs/*.antt") + glob.glob("crates/*/proofs/*.antt"))
    own = {f: declared(f) for f in files}
    kinds = collections.defaultdict(set)
    for f in files:
        for name, kind in own[f]:
            kinds[name].add(kind)
    plain = [n for n in kinds if n[0].islower() and n.isascii() and "◌" not in n]
    new = {n: respelled(n) for n in plain if respelled(n) != n}
    for n in sorted(new):
        print(n, new[n])

    # a lemma that would bear the name of the definition that it speaks of
    lemmas = collections.defaultdict(dict)
    for f in files:
        there = set(WORD.findall(open(f).read()))
        for n, kind in own[f]:
            said = new.get(n, n)
            if "/proofs/" in f and kind == "def" and n == n.lower() and any(t != n and new.get(t, t) == said for t in there):
                lemmas[f][n] = said + "_lem"
    for f in lemmas:
        for n in lemmas[f]:
            print(f, n, lemmas[f][n])

    for f in files:
        names = collections.Counter(lemmas[f].get(n, new.get(n, n)) for n, k in own[f] if k in ("def", "type"))
        for n, count in names.items():
            if count > 1:
                print(f"falls together: {f}: {n}", file=sys.stderr)

    fields = {n for n in new if "record" in kinds[n]}
    turned = sorted(glob.glob("crates/**/*.antt", recursive=True) + glob.glob("crates/*/src/**/*.rt", recursive=True))
    for f in turned:
        if "/out/" in f:
            continue
        text = open(f).read()
        names = dict(new)
        for g in list(lemmas):
            path = re.sub(r"^crates/(\w+)/proofs/(\w+)\.antt$", r"Rattle.\1.proofs.\2", g)
            brought = re.search(re.escape(path) + r"\.\{([^}]*)\}", text)
            for n in lemmas[g]:
                if f == g or (brought and n in brought.group(1).split(", ")):
                    names[n] = lemmas[g][n]
        # what a file calls a module by
        for alias in re.findall(r"^use \S+ as (\S+)$", text, re.M):
            if "-" in alias:
                names[alias] = alias.replace("-", "_")
        there = set(WORD.findall(text))

        def turn(m):
            name = m.group(0)
            if name not in names:
                return name
            if m.start() and text[m.start() - 1] == "." and name not in fields:
                # behind a dot only a field, or a name behind a module or a type, is the repository's own
                owner = re.search(r"([\w'-]+)\.$", text[: m.start()])
                if not owner or not owner.group(1)[0].isupper():
                    print(f"left: {f}: .{name}", file=sys.stderr)
                    return name
            return names[name]

        said = WORD.sub(turn, text)
        if said == text:
            continue
        # a name that already stood in the file may now mean two things
        for n in there & set(names):
            if names[n] in there and not f.endswith((".rt", "/Proof.antt")):
                print(f"stood before: {f}: {names[n]} ({n})", file=sys.stderr)
        open(f, "w").write(said)


main()
