#!/usr/bin/env python3
"""Turns a crate's proofs that walk the code by hand, Proof.antt, into Invariants.antt and Answers.antt.

    tools/answers.py CRATE_FOLDER NAMES_JSON [FUNCTION..]     # FUNCTION as its folder below proofs/, with dots: reading.fields

NAMES_JSON is the names.json that `rt check --generated FOLDER --old-names` writes in the crate's folder: of each goal and
each step of the code its older name and today's. Answers that today's search finds are left out; what it could not turn it
prints. It served the move to today's Rattle (docs/PORT.md).
"""
import json
import os
import re
import sys

WORD = r"[^\s(){}.;,@\"«»\[\]|]+"
PATH = re.compile(rf"(?<![^\s(){{}};,@\"\[\]|])(?:«[^»]*»|{WORD})(?:\.(?:«[^»]*»|{WORD}))+")
norm = lambda s: s.replace("-", "_")


def blocks(text):
    """Header comment, use lines, then declarations as (name, text)."""
    lines = text.split("\n")
    head, uses, decls, cur = [], [], [], None
    i = 0
    while i < len(lines) and (lines[i].startswith("--") or not lines[i].strip()):
        if lines[i].strip():
            head.append(lines[i])
        i += 1
    pend = []
    for l in lines[i:]:
        if re.match(r"(pub )?use ", l) and cur is None:
            uses.append(l)
            continue
        if not l.strip():
            if cur is not None:
                cur.append(l)
            continue
        if l.startswith("--"):
            pend.append(l)
            continue
        if l[0] not in " \t)" :
            m = re.match(rf"((?:abbrev|unfoldable|pub) )*({WORD})((?: \{{[^{{}}]*\}})*) :( |$)", l)
            if m or l.startswith(("module ", "data ", "record ", "pub data ", "pub record ")):
                cur = pend + [l]
                pend = []
                decls.append([m[2] if m else l.split()[1], cur])
                continue
            m = re.match(rf"(?:abbrev )?(?:pub )?({WORD}(?: {WORD})+) : ", l)
        if pend:
            cur += pend
            pend = []
        if cur is None:
            cur = [l]
            decls.append(["?", cur])
        else:
            cur.append(l)
    return head, uses, [(n, "\n".join(c).rstrip("\n")) for n, c in decls]


def split_args(s):
    """Top-level arguments of an application, by parentheses."""
    out, depth, cur = [], 0, ""
    for ch in s:
        if ch in "([{":
            depth += 1
        if ch in ")]}":
            depth -= 1
        if ch in " \n" and depth == 0:
            if cur:
                out.append(cur)
            cur = ""
        else:
            cur += ch
    if cur:
        out.append(cur)
    return out


def main():
    crate, names = sys.argv[1], json.load(open(sys.argv[2]))
    only = sys.argv[3:]
    lib = os.path.basename(os.path.abspath(crate))
    for folder, dirs, files in list(os.walk(os.path.join(crate, "proofs"))):
        if "Proof.antt" not in files:
            continue
        rel = os.path.relpath(folder, os.path.join(crate, "proofs")).replace(os.sep, ".")
        if only and rel not in only:
            continue
        key = f"Rattle-{lib}-proofs.{rel}.Lts"
        if key not in names:
            print(f"no names: {rel}")
            continue
        convert(lib, rel, folder, names[key])


def convert(lib, rel, folder, N):
    path = os.path.join(folder, "Proof.antt")
    text = open(path).read()
    head, uses, decls = blocks(text)
    left = []
    needs = {norm(o): n for o, n in N["needs"]}
    order = [norm(o) for o, n in N["needs"]]
    fields = {}
    for pl in N["places"]:
        o, n = pl[2]
        if o:
            fields[norm(o)] = n
    callees = {norm(pl[2][0]): N["params"].get(pl[3]) for pl in N["places"] if pl[3]}
    # an arm's first steps are one place with its last
    last_of = lambda n: re.sub(r"-\d+$", "", n) if n.startswith("In-") and re.sub(r"-\d+$", "", n) in N["places_by_name"] else n
    places = {norm(pl[0]): last_of(nb) for pl, nb in zip(N["places"], N["places_by_name"])}
    loops = {}
    for (pair, vs), ch in zip(N["loops"], N["changed"] or [[]] * len(N["loops"])):
        loops[norm(pair[0])] = (pair[1], vs, ch)
        fields[norm(pair[0])] = pair[1]

    def need(o):
        o = norm(o)
        if o.startswith("slice_bounds_") and "part_" + o[13:] in needs:
            return "part_" + o[13:]
        for cut in ("", "overflow_", "nonzero_", "no_deeper_"):
            if o.startswith(cut) and o[len(cut):] in needs:
                return o[len(cut):]
        return o

    up = {pl[0]: pl[1] for pl in N["places"]}
    where = {norm(o): at[0] for (o, n), at in zip(N["needs"], N["asked_at"])}

    def rise(at, befores):
        for _ in range(befores):
            at = up.get(at)
        return at

    takes, lent_places = {}, {}

    def shown(v, befores, at, goal, to=None):
        """The record of an earlier place, as a helper takes it: v, which stands at `at`, and so many places back."""
        if to and norm(to) == norm(at or "") and not goal:
            return v
        to = to or rise(at, befores)
        if befores == 0 and not goal:
            return v
        if not to or (v == "c" and goal and at is None):
            left.append(f"{v}{'.before' * befores} is passed on")
            return v + ".before" * befores
        to = places[norm(to)]
        key = needs[goal] if goal and v == "c" else places[norm(at)]
        cited.add(to)
        return f"(goal.at.{key} {v}).{to}"

    here = {pl[0]: (i, pl) for i, pl in enumerate(N["places"])}

    def field_at(at, name):
        """The new name of an old field, seen from a place; and the place."""
        while at in here:
            i, pl = here[at]
            if norm(pl[2][0]) == name:
                return pl[2][1], i
            at = up.get(at)
        return fields[name], next(i for i, pl in enumerate(N["places"]) if norm(pl[2][0]) == name)

    def follow(rest, at):
        """A path behind the head, from its first field on."""
        name = norm(rest[0])
        if name not in fields and name[0].lower() + name[1:] in fields:
            name = name[0].lower() + name[1:]
        if name not in fields and name.rstrip("0123456789") in fields:
            name = name.rstrip("0123456789")
        if name not in fields:
            return rest
        if name in loops:
            new, callee = loops[name][0], loops[name][1]
            out, rest = [new], rest[1:]
        else:
            new, i = field_at(at, name)
            callee = N["params"].get(N["places"][i][3])
            out, rest = [new], rest[1:]
            renamed = dict(N["places"][i][4])
            if rest and rest[0] in renamed:
                rest = [renamed[rest[0]]] + rest[1:]
            arm = N["arms"][i] if i < len(N["arms"]) else None
            fit = [(to, subs) for to, of, subs in (arm[2] if arm else []) if norm(of) == name and rest[: len(subs)] == subs]
            if fit:
                to, subs = max(fit, key=lambda x: len(x[1]))
                out, rest = [arm[0], to], rest[len(subs):]
        if re.match(r"wrapping_(add|sub|mul)", new) and rest[:1] == ["ensures"]:
            rest[0] = "ensures.value"
        if rest[:1] == ["type-inv"]:
            rest[0] = "type_inv"
        if callee and len(rest) > 1 and rest[0] in ("new", "auto") and rest[1] in ("0", "1"):
            k = 1
            while k < len(rest) and rest[k] == "1":
                k += 1
            if k < len(rest) and rest[k] == "0" and k - 1 < len(callee):
                rest = [rest[0], callee[k - 1]] + rest[k + 1 :]
        return out + rest

    old_place = {norm(p): p for p in here}

    def term(t, goal=None):
        at = {"c": where[goal]} if goal else {}
        at.update(binders(t))
        passed = []

        def one(m):
            whole = m[0]
            parts = re.findall(r"«[^»]*»|[^.]+", whole)
            if parts[0] == "tie":
                p = norm(parts[1])
                if p.startswith("Need_"):
                    return "goal." + needs.get(need(p[5:]), "?" + p[5:])
                to = places.get(p, parts[1])
                cited.add(to)
                return ".".join([to] + parts[2:])
            v = parts[0]
            if v not in at:
                return whole
            rest, k = parts[1:], 0
            while rest and rest[0] == "before":
                rest, k = rest[1:], k + 1
            if not rest:
                b = re.search(r"let (\S+) (?:: \S+ )?= $", t[: m.start()])
                if b and re.match(r" in\s", t[m.end():]):
                    at[b[1]] = rise(at[v], k)
                    return f"{v}⁋{k}⁋"
                by = re.search(r"(?<![^\s(){};,])([^\s(){};,.]+) $", t[: m.start()])
                passed.append((v, k, takes.get(by[1]) if by else None))
                return f"⁋⁋{len(passed) - 1}⁋⁋"
            return ".".join([v] + follow(rest, rise(at[v], k)))

        t = re.sub(r"(\.given [^()]*\))\.ranges", r"\1.fits", t)
        for m in re.finditer(r"let (\S+) = c in\s", t) if "c" in at else []:
            at[m[1]] = at["c"]
        if "c" in at:
            t = re.sub(r"(let \S+ = c) in(?=\s)", r"\1⁋0⁋ in", t)

        def held(m):
            return f"({m[1]} {m[2]})." + ".".join(follow(m[3].split("."), lent_places[m[1]])) if m[1] in lent_places else m[0]

        t = re.sub(rf"\(([^\s()]+) ([^()]*)\)\.((?:{WORD})(?:\.(?:{WORD}))*)", held, t)
        t = PATH.sub(one, t)
        t = plain(t, at, goal, passed)
        # the test of an `if !x` says of x itself what it is: what the lemma made of its raw form
        t = re.sub(r"(?<![\w.'-])not-(true|false) \S+ ([^\s(){},;]+\.\1)-raw(?![\w'-])", r"\2", t)
        t = re.sub("⁋⁋(\\d+)⁋⁋", lambda m: shown(*passed[int(m[1])][:2], at[passed[int(m[1])][0]], goal, passed[int(m[1])][2]), t)
        return re.sub(r"((?:After|In|Then|Else|At|Start|Arm)[^\s()]*)(?: (?:invariant|decreases)-[^\s()]*)+", r"\1", t)

    def binders(t):
        """The variables of a helper that stand for a place, by their names in its signature and in its clauses."""
        out = {}
        for m in re.finditer(r"\(([^():]+) : tie\.([^\s()]+)[^()]*\)", t):
            for v in m[1].split():
                if norm(m[2]) in old_place:
                    out[v] = old_place[norm(m[2])]
        for m in re.finditer(r"(?m)^\s*(?:abbrev )?(?:pub )?(\S+) : tie\.(\S+)", t):
            if norm(m[2]) in old_place:
                out[m[1]] = old_place[norm(m[2])]
        lines = t.split("\n")
        sig = re.match(r"((?:abbrev |unfoldable |pub )*)(\S+)((?: \{[^{}]*\})*) : (.*)", lines[0])
        if sig:
            text = sig[4]
            for l in lines[1:]:
                if l[:1] not in " \t":
                    break
                text += " " + l.strip()
            explicit, i = [], 0
            while i < len(text) and text[i] in "({ →":
                if text[i] in "({":
                    depth, j = 0, i
                    while True:
                        depth += text[j] in "({[" 
                        depth -= text[j] in ")}]"
                        j += 1
                        if depth == 0:
                            break
                    m = re.match(r"\((.*?) : (.*)\)$", text[i:j])
                    if m and text[i] == "(":
                        explicit += [(n, m[2]) for n in m[1].split()]
                    elif text[i] == "(":
                        break
                    i = j
                else:
                    i += 1
            for l in lines[1:]:
                m = re.match(re.escape(sig[2]) + r" ((?:\S+ )+)=", l)
                if m:
                    args = re.sub(r"\{[^{}]*\} ?", "", m[1]).split()
                    for v, (n, ty) in zip(args, explicit):
                        p = re.match(r"tie\.(\S+)", ty)
                        if p and norm(p[1]) in old_place:
                            out[v] = old_place[norm(p[1])]
        return out

    cited = set()
    def free(t, v, w):
        """v. becomes w., but where a λ binds v."""
        out, depth, bound, lets, i = "", 0, [], 0, 0
        while i < len(t):
            m = re.match(r"λ ([^.]*)\. ", t[i:])
            if m and re.search(rf"(?<![^\s(]){re.escape(v)}(?![^\s):])", m[1]):
                bound.append((depth, lets))
                out, i = out + m[0], i + len(m[0])
                continue
            ch = t[i]
            if i == 0 or t[i - 1] in " \n(":
                lets += bool(re.match(r"let\s", t[i:]))
                if re.match(r"in\s", t[i:]):
                    lets -= 1
                    bound = [b for b in bound if b[1] <= lets]
            if ch in "([{":
                depth += 1
            if ch in ")]}":
                depth -= 1
                bound = [b for b in bound if b[0] <= depth]
            if not bound and t.startswith(v + ".", i) and (i == 0 or t[i - 1] in " \n(){};,@"):
                out, i = out + w + ".", i + len(v) + 1
                continue
            if w == "\0" and not bound and t.startswith(v, i) and (i == 0 or t[i - 1] in " \n(){};,@") and re.match(r"[\s(){};,]|$", t[i + len(v) :]) and not re.match(r" =", t[i + len(v) :]):
                out += "\0\0"
            out, i = out + ch, i + 1
        return out

    def plain(t, at, goal, passed):
        """Without the names that only stand for an earlier place of what a variable is."""
        while True:
            found = re.search(r"let ([^\s:]+) = ([^\s.⁋]+)⁋(\d+)⁋ in\s+", t)
            if not found:
                return t
            v, w, k = found[1], found[2], int(found[3])
            rest = free(t[found.end():], v, w)
            for i, (a, n, to) in enumerate(passed):
                if a == v:
                    passed[i] = (w, n + k, to)
            rest = re.sub(rf"= {re.escape(v)}⁋(\d+)⁋", lambda m: f"= {w}⁋{int(m[1]) + k}⁋", rest)
            # the place that a helper takes, where it is passed to one: the steps between may be more or fewer today
            to = next((takes[m[1]] for m in re.finditer(rf"(?<![^\s(){{}};,])([^\s(){{}};,.]+) {re.escape(v)}(?=[\s(){{}};,]|$)", rest) if m[1] in takes), None)
            kept = f"let {v} = {shown(w, k, at[w], goal, to)} in\n    " if free(rest, v, "\0").count("\0\0") else ""
            t = t[: found.start()] + kept + rest

    imports = [u for u in uses if ".Statement.{statement}" not in u and not re.search(r"\.Tie( as tie)?$", u)]
    inv, ans = [], []
    listed = []
    named = {}
    final = None
    for name, d in decls:
        body = d
        sig = next((l for l in d.split("\n") if not l.startswith("--")), "")
        if re.search(r"statement \w+( \w+)*$", sig) and "spec" in name:
            final = d
            continue
        named[name if name not in named else f"{name} {len(named)}"] = d
    for name, d in named.items():
        if d.lstrip().startswith("module") or "\nmodule" in d:
            for n, p in re.findall(r"(?m)^  abbrev (\S+) : tie\.(\S+)", d):
                if norm(p) in old_place:
                    lent_places[n] = old_place[norm(p)]
            m = re.search(r"module \S+ \((\S+) : tie\.([^\s()]+)", d)
            if m and norm(m[2]) in old_place:
                for n in re.findall(r"(?m)^  (?:(?:abbrev|unfoldable|pub) )*(\S+)(?: \{[^{}]*\})* : ", d):
                    takes[n] = old_place[norm(m[2])]
            continue
        m = re.search(r"(?m)^(?:(?:abbrev|unfoldable|pub) )*(\S+)(?: \{[^{}]*\})* : \((\S+) : tie\.([^\s()]+)", d)
        if m and norm(m[3]) in old_place:
            takes[m[1]] = old_place[norm(m[3])]
    # answers that stand in the list of the end
    inline = {}
    if final:
        m = re.search(r"tie\.spec\b(.*)\)\s*$", final, re.S)
        if m:
            args = split_args(m[1])
            nl = 2 * len(N["loops"])
            k = [a for a in args]
            rest = [a for a in k if not (a in named and re.search(r"tie\.(invariant|decreases)", named[a]))]
            if len(rest) == len(order):
                for a, o in zip(rest, order):
                    inline[o] = a
            else:
                left.append(f"{len(rest)} answers for {len(order)} needs")
    done = set()
    for name, d in named.items():
        lines = d.split("\n")
        com = [l for l in lines if l.startswith("--")]
        rest = [l for l in lines if not l.startswith("--")]
        sig = rest[0]
        m = re.search(r": tie\.(invariant|decreases)-(\S+)", sig)
        if m:
            kind = m[1]
            lp = norm(m[2])
            if lp not in loops:
                left.append(f"no loop {lp}")
                continue
            new, vs, ch = loops[lp]
            dm = re.match(r"(\S+)((?: \S+)*?) =(.*)", "\n".join(rest[1:]), re.S)
            if not dm:
                left.append(f"{name}: not read")
                continue
            ps = dm[2].split()
            changed = [v for v, c in zip(vs, ch) if c]
            table = {}
            if len(ps) == len(vs) + len(changed):
                for p, v, c in zip(ps[: len(vs)], vs, ch):
                    table[p] = f"l.initial.{v}" if c else f"l.{v}"
                for p, v in zip(ps[len(vs):], changed):
                    table[p] = f"l.{v}"
            elif len(ps) == len(vs):
                for p, v in zip(ps, vs):
                    table[p] = f"l.{v}"
            else:
                left.append(f"{name}: {len(ps)} names for {len(vs)} + {len(changed)}: {ps} {vs}")
                continue
            b = re.sub(rf"(?<![^\s(){{}};,@\"\[\]|])({WORD})", lambda mm: table.get(mm[1], mm[1]), dm[3])
            inv.append((com, f"abbrev pub {kind}-{new} : goal.{kind}-{new}\n{kind}-{new} l ={b}"))
            continue
        m = re.search(r": tie\.Need-(\S+)", sig)
        if m:
            o = need(m[1])
            if o not in needs:
                left.append(f"no need {o}")
                continue
            n = needs[o]
            done.add(o)
            body = "\n".join(rest[1:])
            un = ""
            while body.startswith("unfolding"):
                l, _, body = body.partition("\n")
                un += l + "\n"
            dm = re.match(r"(\S+)((?: \S+)*?) =(.*)", body, re.S)
            if not dm:
                left.append(f"{name}: not read")
                continue
            if dm[3].strip() == "search rules" and not un:
                continue
            args = [a for a in dm[2].split() if a != "κs"]
            ans.append((com, n, un, args, dm[3]))
            continue
        ans.append((com, None, "", [], term("\n".join(rest)) if "tie." in d else "\n".join(rest)))
    for o, a in inline.items():
        if o in done or a in named:
            continue
        m = re.match(r"\(λ ((?:\S+ )*?\S+)\. (.*)\)$", a, re.S)
        if not m:
            if a not in ("search", "rules"):
                left.append(f"inline {o}: {a[:60]}")
            continue
        if m[2].strip() == "search rules":
            continue
        args = [x for x in m[1].split() if x != "κs"]
        ans.append(([], needs[o], "", args, " " + m[2]))
    base = f"Rattle.{lib}.proofs.{rel}"
    # what the invariants name stands beside them, and answers take it from there
    lent = []
    while True:
        said = "\n".join(x for _, x in inv)
        called = lambda a: re.match(r"(?:(?:abbrev|unfoldable|pub) )*(\S+)", a[4])[1]
        more = [a for a in ans if a[1] is None and a not in lent and re.search(r"(?<![\w.'-])" + re.escape(called(a)) + r"(?![\w'-])", said)]
        if not more:
            break
        ans = [a for a in ans if a not in more]
        lent += more
        for a in more:
            body = a[4] if re.match(r"((abbrev|unfoldable) )*pub ", a[4]) else re.sub(r"^((?:(?:abbrev|unfoldable) )*)", r"\1pub ", a[4])
            inv.insert(0, (a[0], body))
    names_lent = [re.match(r"(?:(?:abbrev|unfoldable|pub) )*(\S+)", a[4])[1] for a in lent]
    if names_lent and ans:
        imports_more = [f"use {base}.Invariants.{{{', '.join(names_lent)}}}"]
    else:
        imports_more = []
    if inv:
        t = "\n".join(head + imports + [f"use {base}.Given as goal", ""]) + "\n"
        t += "\n\n".join("\n".join(c + [x]) for c, x in inv) + "\n"
        open(os.path.join(folder, "Invariants.antt"), "w").write(t)
    if ans:
        out = []
        for com, n, un, args, body in ans:
            if n is None:
                out.append("\n".join(com + [body]))
            else:
                out.append("\n".join(com + [f"pub {n} : goal.{n}\n{un}{n} {' '.join(args)} ={term(body, next(o for o in order if needs[o] == n))}"]))
        more = [f"use {base}.Goals.{{{', '.join(sorted(cited))}}}"] if cited else []
        t = "\n".join(head + imports + imports_more + more + [f"use {base}.Goals as goal", ""]) + "\n"
        t += "\n\n".join(out) + "\n"
        open(os.path.join(folder, "Answers.antt"), "w").write(t)
    os.remove(path)
    if left:
        print(f"{rel}: " + "; ".join(left))


main()
