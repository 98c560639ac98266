#!/usr/bin/env python3
"""Spells this repository's own definitions and lemmas as today's Rattle does: words in snake case, modules in camel case.

usage: tools/spell.py [--list]        at the top of the repository, once, right after port.py; --list only prints the table

A definition `areaAt` becomes `area_at`, a lemma `bits-append` becomes `bits_append`, the module `laws` becomes `Laws`.
Where a lemma would meet a definition or a variable it gets `_lem`, and where a definition would meet a variable it gets
`_of`. What Rattle source declares keeps its name, and so do the library's names and those that Rattle makes. It turns
.antt and .rt files and must-fail edits, and in README.md and docs/ what stands between backticks.
"""
import collections
import os
import re
import subprocess
import sys

WORD = re.compile(r"""[^\s(){}.;,@"«»`\[\]|]+""")
ALIAS = re.compile(r"(?m)^(?:pub )?use .*$")
SEVERAL = re.compile(r"^ *(?:pub )?([a-z][\w'-]*(?: [a-z][\w'-]*)+) : ")
DECLARED = re.compile(r"^((?:(?:abbrev|unfoldable|pub|pattern) )*)([^\s(){}.;,@:]+)((?: \{[^{}]*\})*) : (.*)")
MEMBER = re.compile(r"^ +(?:pub )?([^\s(){}.;,@:]+) : ")
OWN = re.compile(r"^_?[a-z][\w'-]*$")
LAWS = [(re.compile(r"\bspecs\.laws\b"), "specs.Laws"), (re.compile(r"^pub mod laws$", re.M), "pub mod Laws"), (re.compile(r"\bspecs/laws\b"), "specs/Laws"), (re.compile(r"`laws`"), "`Laws`"), (re.compile(r"`laws/"), "`Laws/")]


def snake(name):
    return re.sub(r"(?<=[a-z0-9])([A-Z])", lambda m: "_" + m[1].lower(), name).replace("-", "_")


def files(*ends):
    for folder, dirs, names in os.walk("crates"):
        dirs[:] = sorted(d for d in dirs if d != "out")
        yield from (os.path.join(folder, n) for n in sorted(names) if n.endswith(ends))


def text_of(path):
    with open(path, encoding="utf-8") as f:
        return f.read()


def code(path, text):
    return re.sub(r"//[^\n]*" if path.endswith(".rt") else r"--[^\n]*", "", text)


def bare_words(text):
    """The words that stand behind no dot."""
    return {m[0] for m in WORD.finditer(text) if not text[: m.start()].endswith(".")}


def functions():
    return {m for p in files(".rt") for m in re.findall(r"\bfn (\w+)", text_of(p))}


def table():
    own, words = {}, {}
    for p in files(".antt"):
        text = code(p, text_of(p))
        words[p] = bare_words(text)
        for line in ALIAS.findall(text):
            for n in re.findall(r" as ([^\s(){}.;,]+)", line):
                own.setdefault(n, p)
        for line in text.split("\n"):
            m = None if p.endswith("/Proof.antt") else SEVERAL.match(line)
            for n in m[1].split() if m else []:
                own.setdefault(n, p)
            m = DECLARED.match(line)
            if m and not m[4].startswith("tie.") and not (p.endswith("/Proof.antt") and m[2].endswith("-spec")):
                own.setdefault(m[2], p)
            m = None if p.endswith("/Proof.antt") else MEMBER.match(line)
            if m:
                own.setdefault(m[1], p)
    for p in files(".rt"):
        words[p] = bare_words(code(p, text_of(p)))
    called = functions()
    turned = {n: snake(n) for n in sorted(own) if OWN.match(n) and snake(n) != n}
    taken = collections.Counter(turned.values())
    for name, to in list(turned.items()):
        lemma = "-" in name
        met = [p for p in words if name in words[p] and to in words[p]]
        if to in called:
            met = [p for p in met if p.endswith(".antt") and not p.endswith("/Proof.antt")]
        if met or (lemma and taken[to] > 1) or (to in own and lemma):
            turned[name] = to + ("_lem" if lemma else "_of")
    ends = collections.Counter(turned.values())
    clash = sorted(n for n, to in turned.items() if ends[to] > 1 or to in turned)
    if clash:
        sys.exit(f"spell: these fall together: {clash}")
    return turned


def spell(text, turned, made):
    """The text with its words turned. In a walk of Rattle's own names (made) what stands behind a dot gets plain underscores."""

    def turn(m):
        word, before = m[0], text[max(0, m.start() - 1) : m.start()]
        if word not in turned:
            return word
        return snake(word) if made and before == "." and "-" in word else turned[word]

    return WORD.sub(turn, text)


def main(words):
    # An alias of the library's `place` would meet the definition `placeAt`.
    row = "crates/desk/proofs/Row.antt"
    if os.path.exists(row) and words != ["--list"]:
        old = text_of(row)
        with open(row, "w", encoding="utf-8") as f:
            f.write(re.sub(r"\bplace_at\b", "room_at", old))
    turned = table()
    if words == ["--list"]:
        print("\n".join(f"{a}\t{b}" for a, b in turned.items()))
        return
    for folder, dirs, _ in list(os.walk("crates")):
        if folder.endswith("/specs") and "laws" in dirs:
            subprocess.run(["git", "mv", f"{folder}/laws", f"{folder}/Laws"], check=True)
            subprocess.run(["git", "mv", f"{folder}/laws.antt", f"{folder}/Laws.antt"], check=True)
    papers = ["README.md"] + [os.path.join("docs", n) for n in sorted(os.listdir("docs")) if n.endswith(".md")]
    for p in [*files(".antt", ".rt", ".edit"), *papers]:
        old = new = text_of(p)
        for pattern, to in LAWS:
            new = pattern.sub(to, new)
        if p.endswith(".md"):
            new = re.sub(r"`[^`\n]+`", lambda m: spell(m[0], turned, False), new)
        else:
            new = spell(new, turned, p.endswith("/Proof.antt"))
        if new != old:
            with open(p, "w", encoding="utf-8") as f:
                f.write(new)


if __name__ == "__main__":
    main(sys.argv[1:])
