#!/usr/bin/env python3
"""Keeps the theorems that a must-fail edit of a definition makes unchecked in proofs/, and their importers in step.

`rt` takes an edit for one that it cannot read where a theorem of specs/ rests on one that the edit refuses. So such
theorems stand in crates/CRATE/proofs/Laws/FILE.antt, and not in specs/Laws/FILE.antt beside the definitions and lemmas that
they rest on. The names below are those that moved. tools/moved.py moves what still stands in specs/ (a theorem, or a whole
`module` block, with its comments), and turns each import of a moved name in every crate. Run again it changes nothing.

    tools/moved.py              # moves, and turns imports
    tools/moved.py --find CRATE LOG..  # adds to the table what the prover's output of edits (LOG) shows to be in need of it
    tools/moved.py --statements # what moved, whole, without its proof: the list of docs/PORT.md
"""
import glob
import json
import os
import re
import sys

os.chdir(os.path.join(os.path.dirname(os.path.abspath(__file__)), ".."))
TABLE = "tools/moved.json"
NAME = r"[^\s(){}\[\],;.`]+"
HEAD = re.compile(rf"((?:(?:abbrev|pub|unfoldable|opaque) )*)(?:(data|record) )?((?:{NAME} )*?{NAME})(?= :| \(|  *\{{|$)")


def read(path):
    return open(path, encoding="utf-8").read()


class Unit:
    """A declaration at the left edge, or a whole module block, with the comments above it."""

    def __init__(self, comments, lines):
        self.comments, self.lines, self.names = comments, lines, []

    def text(self):
        return "\n".join(self.comments + self.lines)

    def body(self):
        return "\n".join(re.sub(r"--.*", "", line) for line in self.lines)


def declared(line):
    """The names that a line declares, where it is a signature or begins a record or a data type."""
    found = re.match(r"((?:(?:abbrev|pub|unfoldable|opaque) )*)(data|record) (?:pub )?(\S+)", line)
    if found:
        return [found[3]]
    found = re.match(rf"(?:(?:abbrev|pub|unfoldable|opaque) )*({NAME}(?: {NAME})*) : ", line)
    if found and not re.match(r"(use|mod|module|where|let|λ|unfolding|in)\b", line) and not {"=", "let", "λ"} & set(found[1].split()):
        return found[1].split()
    found = re.match(rf"(?:(?:abbrev|pub|unfoldable|opaque) )*({NAME}) :$", line)
    return [found[1]] if found else []


def names_of(lines):
    names, kind = [], None
    first = lines[0]
    if first.startswith("module "):
        depth = [2]
        for line in lines[1:]:
            if not line.strip():
                continue
            indent = len(line) - len(line.lstrip(" "))
            while len(depth) > 1 and indent < depth[-1]:
                depth.pop()
            if indent == depth[-1]:
                if line.strip().startswith("module "):
                    depth.append(indent + 2)
                    continue
                names += [one for one in declared(line.strip()) if one not in names]
                kind = re.match(r"(?:(?:abbrev|pub) )*(data)\b", line.strip())
            elif kind and indent == depth[-1] + 2:
                names += declared(line.strip())
    else:
        names += declared(first)
        if re.match(r"(?:(?:abbrev|pub) )*data\b", first):
            for line in lines[1:]:
                names += declared(line.strip()) if re.match(r"  \S", line) else []
    return names


def parsed(text):
    """The title (comments and imports) of a file, and its units; a section's heading is a unit of comments alone."""
    lines = text.rstrip("\n").split("\n")
    at = max([k for k, line in enumerate(lines) if re.match(r"(pub )?use ", line)] + [0]) + 1
    title, units, waiting, current = lines[:at], [], [], None
    for line in lines[at:]:
        if current is not None and (not line.strip() or line.startswith(" ") or line.startswith("unfolding ") or any(re.match(re.escape(one) + r"(?![^\s(){}])", line) for one in current.names)):
            current.lines.append(line)
            continue
        if current is not None and not declared(line) and not line.startswith(("module ", "--", "abbrev", "pub", "data", "record")):
            current.lines.append(line)  # a clause of an operator
            continue
        current = None
        if line.startswith("--"):
            waiting.append(line)
        elif not line.strip():
            if waiting:
                units.append(Unit(waiting, []))
                waiting = []
        else:
            current = Unit(waiting, [line])
            waiting = []
            units.append(current)
            current.names = names_of(current.lines) if not line.startswith("module ") else []
    for unit in units:
        while unit.lines and not unit.lines[-1].strip():
            unit.lines.pop()
        if unit.lines:
            unit.names = names_of(unit.lines)
    return title, units


def module(path):
    return re.sub(r"^crates/", "Rattle.", path)[: -len(".antt")].replace("/", ".")


def imports(title):
    """Of each imported name its module and its name there."""
    found = {}
    for line in title:
        use = re.match(r"(?:pub )?use (\S+?)\.\{(.*)\}", line)
        for one in use[2].split(",") if use else []:
            there, _, here = one.strip().partition(" as ")
            found[here or there] = (use[1], there)
    return found


def laws(crate):
    return {path: parsed(read(path)) for path in sorted(glob.glob(f"crates/{crate}/specs/**/*.antt", recursive=True))}


def uses(files):
    """Of each unit the units that it rests on."""
    own = {}
    for path, (_, units) in files.items():
        for unit in units:
            for name in unit.names:
                # a short name that a block keeps to itself is elsewhere a variable's
                if not unit.lines[0].startswith("module ") or "_" in name or re.search(rf"(?m)^ +(abbrev )?pub (abbrev |record |data )?{re.escape(name)}\b", unit.text()):
                    own[(module(path), name)] = unit
    rests = {}
    for path, (title, units) in files.items():
        brought = imports(title)
        for unit in units:
            if not unit.lines:
                continue
            words = set(re.findall(NAME, unit.body()))
            found = {own.get((module(path), word)) or own.get(brought.get(word)) for word in words}
            rests[unit] = {one for one in found if one is not None and one is not unit}
    return rests


def find(crate, logs):
    """The units of specs/ that rest on one that is refused in the logs, by file."""
    files = laws(crate)
    rests = uses(files)
    lines = {}
    for path in files:
        text = read(path).split("\n")
        for unit in files[path][1]:
            if unit.lines:
                # by its first line
                for at in [k for k, line in enumerate(text) if line == unit.lines[0]]:
                    if text[at : at + len(unit.lines)] == unit.lines:
                        for k in range(at, at + len(unit.lines)):
                            lines[(path, k + 1)] = unit
    moved = set()
    for log in logs:
        refused, waits = set(), set()
        for place, at, name, said in re.findall(r"(?m)^(?:\./)?(specs/\S+?):(\d+):\d+: error: (?:`([^`]*)`: )?(.*)", read(log)):
            unit = lines.get((f"crates/{crate}/{place}", int(at)))
            if unit is None:
                print(f"{log}: no unit at {place}:{at}: {said[:80]}", file=sys.stderr)
            elif name:
                refused.add(unit)
            else:
                waits.add(unit)
        found, todo = set(waits), [*refused, *waits]
        while todo:
            one = todo.pop()
            for unit, others in rests.items():
                if one in others and unit not in found:
                    found.add(unit)
                    todo.append(unit)
        moved |= found
    table = {}
    for path, (_, units) in files.items():
        names = [name for unit in units if unit in moved for name in unit.names]
        if names:
            table[re.sub(rf"^crates/{crate}/specs/|\.antt$", "", path)] = names
    return table


def public(unit, name):
    """The unit with `pub` at this name, and at its fields where it is a record."""
    if re.match(r"(?:abbrev |pub )*data ", unit.lines[0]):
        unit.lines[0] = re.sub(r"^(abbrev )?(pub )?", r"\1pub ", unit.lines[0])
        return
    for at, line in enumerate(unit.lines):
        if name in declared(line.strip()) and not re.match(r" *(?:abbrev |unfoldable |opaque )*pub ", line):
            unit.lines[at] = re.sub(r"^( *(?:abbrev |unfoldable |opaque )*)", r"\1pub ", line)
            if re.match(r" *(pub )?record ", unit.lines[at]):
                unit.lines = [re.sub(r"^( +)(?!pub |--)(?=\S+ : )", r"\1pub ", one) for one in unit.lines]
            return


def joined(title, units):
    """The text of a file; a section's heading stands where one of its units does."""
    out, heading = ["\n".join(title)], None
    for unit in units:
        if not unit.lines:
            heading = unit
            continue
        if heading:
            out.append(heading.text())
            heading = None
        out.append(unit.text())
    return "\n\n".join(out) + "\n"


def write(path, text):
    os.makedirs(os.path.dirname(path), exist_ok=True)
    if not os.path.exists(path) or read(path) != text:
        open(path, "w", encoding="utf-8").write(text)


def declare(path, name, public_too=True):
    """Has an index file declare a module."""
    text = read(path) if os.path.exists(path) else ""
    if not re.search(rf"(?m)^(pub )?mod {name}$", text):
        write(path, text + f"pub mod {name}\n")


def undeclare(path, name):
    write(path, re.sub(rf"(?m)^(pub )?mod {name}\n", "", read(path)))


def move(crate, file, names):
    """Moves the named declarations of one file of specs/ that still stand there."""
    path, to = f"crates/{crate}/specs/{file}.antt", f"crates/{crate}/proofs/{file}.antt"
    if not os.path.exists(path):
        return
    title, units = parsed(read(path))
    going = [unit for unit in units if unit.lines and set(unit.names) <= set(names)]
    if not going:
        return
    # what the file keeps to itself goes with the theorems, where nothing that stays needs it
    rests = uses(laws(crate))
    twins = {unit.text(): others for unit, others in rests.items()}
    more = True
    while more:
        staying = [unit for unit in units if unit.lines and unit not in going]
        needed = {other.text() for unit in staying for other in twins[unit.text()]}
        used = {other.text() for unit in going for other in twins[unit.text()]}
        more = [unit for unit in staying if unit.text() in used - needed and not re.search(r"(?m)^ *(abbrev |unfoldable )*pub ", unit.text())]
        going = [unit for unit in units if unit in going or unit in more]
    folder, _, leaf = file.rpartition("/")
    if os.path.exists(to):
        old_title, old_units = parsed(read(to))
        title_to, units_to = old_title + [line for line in title if re.match("(pub )?use ", line) and line not in old_title], old_units
    else:
        title_to, units_to = list(title), []
    here = {name: unit for unit in staying for name in unit.names}
    wanted = {word for unit in going for word in re.findall(NAME, unit.body()) if word in here}
    for name in wanted:
        public(here[name], name)
    if wanted:
        order = [name for unit in staying for name in unit.names if name in wanted]
        title_to.append(f"use {module(path)}.{{{', '.join(order)}}}")
    write(to, joined(title_to, units_to + [unit for unit in units if not unit.lines or unit in going]))
    if staying:
        write(path, joined(title, [unit for unit in units if unit not in going]))
    else:
        os.remove(path)
    # the index files
    steps = file.split("/")
    for k, step in enumerate(steps):
        parent = "/".join(steps[:k]) or "Lib"
        if not os.path.exists(f"crates/{crate}/proofs/{parent}.antt"):
            write(f"crates/{crate}/proofs/{parent}.antt", "-- What is proved of the definitions.\n")
        declare(f"crates/{crate}/proofs/{parent}.antt", step)
    if not staying:
        undeclare(f"crates/{crate}/specs/{folder or 'Lib'}.antt", leaf)
    print(f"{path}: {len(going)} moved, {len(staying)} stay")


def turn(table):
    """Turns the imports of what moved, in every crate."""
    places = {f"Rattle.{crate}.specs.{file.replace('/', '.')}": set(names) for crate, files in table.items() for file, names in files.items()}
    for path in [*glob.glob("crates/**/*.antt", recursive=True), *glob.glob("crates/**/*.rt", recursive=True)]:
        if "/out/" in path:
            continue
        text = read(path)
        if ".specs." not in text:
            continue

        def parted(found):
            head, place, names, end = found[1], found[2], found[3].split(","), found[4]
            if place not in places:
                return found[0]
            gone = [one.strip() for one in names if re.split(" as ", one.strip())[0] in places[place]]
            left = [one.strip() for one in names if one.strip() and re.split(" as ", one.strip())[0] not in places[place]]
            if not gone:
                return found[0]
            lines = [f"{head}{place}.{{{', '.join(left)}}}{end}"] if left else []
            # (what stays in specs/ needs none of what moved)
            if not path.startswith(f"crates/{place.split('.')[1]}/specs/"):
                lines.append(f"{head}{place.replace('.specs.', '.proofs.', 1)}.{{{', '.join(gone)}}}{end}")
            return "\n".join(lines) or "\0"

        new = re.sub(r"(?m)^((?:pub |ghost )?use )(\S+?)\.\{([^}]*)\}(;?)$", parted, text)
        new = new.replace("\0\n", "")
        if new != text:
            write(path, new)
            print(f"{path}: imports")


def statements(table):
    for crate, files in table.items():
        for file in files:
            path = f"crates/{crate}/proofs/{file}.antt"
            if os.path.exists(path):
                print(f"\n{path}\n")
                print("\n\n".join(signature(unit) for unit in parsed(read(path))[1] if unit.lines))


def signature(unit):
    """A unit without its proofs: the head of each module block, each statement, and whole what is defined."""
    out, depth, state, whole = list(unit.comments), [0], "", None
    for line in unit.lines:
        bare, indent = line.strip(), len(line) - len(line.lstrip(" "))
        if not bare:
            continue
        while len(depth) > 1 and indent < depth[-1]:
            depth.pop()
        if state == "head":
            out.append(line)
            state = "" if bare.endswith("where") else "head"
        elif indent > depth[-1]:
            if state == "shown":
                out.append(line)
        elif bare.startswith("module "):
            out.append(line)
            depth.append(indent + 2)
            state = "" if bare.endswith("where") else "head"
        elif bare.startswith("--"):
            out.append(line)
        elif declared(bare):
            out.append(line)
            state, whole = "shown", declared(bare)[-1] if re.match(r"(abbrev|unfoldable) ", bare) else None
        elif whole and re.match(re.escape(whole) + r"(?![^\s(){}])", bare):
            out.append(line)
            state = "shown"
        else:
            state = ""
    return "\n".join(out)


if __name__ == "__main__":
    table = json.load(open(TABLE, encoding="utf-8")) if os.path.exists(TABLE) else {}
    if sys.argv[1:2] == ["--find"]:
        crate, logs = sys.argv[2], sys.argv[3:]
        new = find(crate, logs)
        print(json.dumps(new, ensure_ascii=False, indent=1))
        for file, names in new.items():
            had = table.setdefault(crate, {}).setdefault(file, [])
            had += [name for name in names if name not in had]
        with open(TABLE, "w", encoding="utf-8") as out:
            json.dump(table, out, ensure_ascii=False, indent=1)
            out.write("\n")
    elif sys.argv[1:] == ["--statements"]:
        statements(table)
    else:
        for crate, files in table.items():
            for file, names in files.items():
                move(crate, file, names)
        turn(table)
