"""The wrong builds of the crates' must-fail edits, for the tools beside this file.

A file crates/CRATE/must-fail/*.edit holds one wrong build or several. Each begins with a line '# NAME: the fact that it
denies', and replaces texts ('file:', 'old:', 'new:' lines, as `rt ci` reads them). Builds that share a file change
the bodies of functions of their own: a proof sees of another function its contract alone, so that the prover says of each
what it would say of it by itself, and one check of the crate tries them all. Where a build changes a condition that a goal
is named after, it changes the name in that function's proof too, unless another of its goals is refused anyway: so it is a
goal that is refused, and not a name.
"""
import glob
import os
import re

os.chdir(os.path.join(os.path.dirname(os.path.abspath(__file__)), ".."))
HEAD = re.compile(r"# ([a-z0-9_]+): (.*)")


class Build:
    """One wrong build: its name, the fact that it denies, its replacements (file, old, new)."""

    def __init__(self, crate, edit, name, fact):
        self.crate, self.edit, self.name, self.fact, self.pairs = crate, edit, name, fact, []

    def applied(self, texts):
        """Makes the replacements in the texts of the crate's files, each read once; says which `old:` does not stand once."""
        wrong = []
        for path, old, new in self.pairs:
            path = f"crates/{self.crate}/{path}"
            text = texts.setdefault(path, read(path))
            if text.count(old) != 1:
                wrong.append(f"stands {text.count(old)} times in {path}: {old}")
            texts[path] = text.replace(old, new, 1)
        return wrong

    def function(self):
        """The function, (module path, type, name), whose body is all that the build changes; None where it changes more."""
        texts, found = {}, set()
        if self.applied(texts):
            return None
        for path, text in texts.items():
            before, after = parts(path, read(path)), parts(path, text)
            differing = {part for part in before.keys() | after.keys() if before.get(part) != after.get(part)}
            found |= {user(path, before, part) if len(part) == 2 else part for part in differing}
        # A function's proof is a part of it, since no other sees it.
        proofs = {part for part in found if isinstance(part, str) and part.startswith("proofs/")}
        if len(found - proofs) != 1 or "" in found:
            return None
        function = (found - proofs).pop()
        own = "/".join(["", *filter(None, function[1:])])
        return function if all(part.endswith(own) for part in proofs) else None

    def reshapes(self):
        """Whether the build changes which operations and calls a function makes, and so which needs its proof has."""
        texts = {}
        self.applied(texts)
        return any(operations(path, read(path)) != operations(path, text) for path, text in texts.items())

    def label(self):
        return f"{self.crate} `{self.name}`"


def read(path):
    return open(path, encoding="utf-8").read()


def closing(text, at):
    """Where the brace that opens at `at` is closed."""
    depth = 0
    for brace in re.finditer(r"[{}]", text[at:]):
        depth += 1 if brace[0] == "{" else -1
        if depth == 0:
            return at + brace.start()
    return len(text)


def parts(path, text):
    """A file by its parts, without comments: the body of each function, and under '' all else, the contracts among it. A
    function's proof is one part, under its folder."""
    proof = re.fullmatch(r"crates/\w+/(proofs/.*)/(Answers|Invariants)\.antt", path)
    if proof:
        return {proof[1]: text}
    if not path.endswith(".rt"):
        return {"": text}
    module = re.sub(r"(^|/)(lib|main|mod)$", "", path.split("/src/")[1][:-3]).replace("/", "::")
    text = re.sub(r"(?s)/\*.*?\*/", "", re.sub(r"(?m)//.*$", "", text))
    found, done, kind, kind_end = {"": ""}, 0, "", 0
    for head in re.finditer(r"\bimpl(?:<[^>]*>)? (\w+)(?:<(\w+)>)?(?: for (\w+))?[^{]*\{|\bfn (\w+)", text):
        if head[1]:
            # a trait's functions stand below the type, the trait and what it is of: RefusalFromReason
            kind, kind_end = (head[3] or "") + head[1] + (head[2] or "" if head[3] else ""), closing(text, head.end() - 1)
        elif done <= head.start():
            brace = text.index("{", head.end())
            behind = ""
            while not behind.startswith(";") and re.search(r"\b(requires|ensures|ghost)(\s+\w+)?\s*$", text[head.end() : brace]):
                end = closing(text, brace) + 1
                brace, behind = text.index("{", end), text[end:].lstrip()
            if behind.startswith(";"):
                continue  # a trait's function has a contract alone
            found[""] += text[done:brace]
            done = closing(text, brace)
            found[(module, kind if head.start() < kind_end else "", head[4])] = text[brace:done]
    found[""] += text[done:]
    # A private constant that one function alone names is a part of that function's body.
    alone = () if re.search(r"(?m)^(pub )?mod ", text) else re.finditer(r"(?m)^const (\w+): [^=]*= [^;]*;", text)
    for one in alone:
        users = [part for part, body in found.items() if part and re.search(rf"\b{one[1]}\b", body)]
        if len(users) == 1 and len(re.findall(rf"\b{one[1]}\b", found[""])) == 1:
            found[""] = found[""].replace(one[0], "")
            found[users[0]] += one[0]
    # A type's constant is a part of its own, under its type and name.
    for block in re.finditer(r"\bimpl (\w+) \{", text):
        for one in re.finditer(r"(?m)^    (?:pub )?const (\w+): [^=]*= [^;]*;", text[block.end() : closing(text, block.end() - 1)]):
            found[""] = found[""].replace(one[0], "")
            found[(block[1], one[1])] = one[0]
    return {part: re.sub(r"\s+", " ", body).strip() for part, body in found.items()}


def user(path, before, constant):
    """The function that alone in its crate names a type's constant, as a name of a field: the constant is a part of its body. Else ''."""
    name = re.compile(r"\b(?:%s|Self)::%s\b" % constant)
    users = [part for part, body in before.items() if name.search(body)]
    sources = glob.glob(path.split("/src/")[0] + "/src/**/*.rt", recursive=True)
    alone = len(users) == 1 and len(users[0]) == 3 and not any(name.search(read(other)) for other in sources if other != path)
    return users[0] if alone else ""


def operations(path, text):
    """Of each function what may bring a need: branches, casts, calls, indices and arithmetic, but no division by a numeral."""
    may = r"\b(?:if|else|while|return|as)\b|\w+(?=\()|<<|>>|[-+*\[]|[/%](?!=? ?[1-9])"
    return {part: re.findall(may, body) for part, body in parts(path, text).items() if part and path.endswith(".rt")}


def builds(edit):
    """The builds of one file."""
    crate = edit.split("/")[1]
    found, path, old = [], "", ""
    for line in open(edit, encoding="utf-8").read().split("\n"):
        head = HEAD.fullmatch(line)
        if head:
            found.append(Build(crate, edit, head[1], head[2]))
        elif line.startswith("# ") and found and not found[-1].pairs:
            found[-1].fact += " " + line[2:].strip()
        elif line.startswith("file: "):
            path = line[6:]
        elif line.startswith("old: "):
            old = line[5:]
        elif line.startswith("new:") and found:
            found[-1].pairs.append((path, old, line[4:].removeprefix(" ")))
    return found


def edits():
    return sorted(glob.glob("crates/*/must-fail/*.edit"))
