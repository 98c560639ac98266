"""The functions of the crates as their source declares them, for tools/claims and tools/header."""
import glob
import re
from dataclasses import dataclass, field

HEAD = re.compile(
    r"(?m)^(?P<indent>[ \t]*)(?P<attributes>(?:#\[[^\]]*\]\s*)*)"
    r"pub\s+(?:const\s+)?(?P<c>extern\s+\"C\"\s+)?fn\s+(?P<name>\w+)\s*(?:<(?:[^()]|\([^()]*\))*?>\s*)?\("
)


@dataclass
class Function:
    path: str  # crate::module::Type::name
    name: str
    exported: bool  # under its own name, for C
    parameters: list  # pairs of a name and a type, in order
    result: str  # a type, or "" where it gives nothing
    requires: list = field(default_factory=list)
    ensures: list = field(default_factory=list)


def closing(text, start):
    """Where the bracket that opens at `start` is closed: the place behind it."""
    pairs, depth = {"(": ")", "{": "}", "[": "]"}, 0
    for place in range(start, len(text)):
        if text[place] in pairs:
            depth += 1
        elif text[place] in pairs.values():
            depth -= 1
            if depth == 0:
                return place + 1
    raise SystemExit(f"no end of the bracket at {text[start:start + 60]!r}")


def parts(text, mark):
    """Text cut at each mark that stands in no bracket."""
    found, depth, last = [], 0, 0
    for place, letter in enumerate(text):
        depth += (letter in "([{") - (letter in ")]}")
        if depth == 0 and text.startswith(mark, place):
            found.append(text[last:place])
            last = place + len(mark)
    return found + [text[last:]]


def parsed(path, name, exported, text, start):
    """The function whose list of parameters opens at `start`."""
    end = closing(text, start)
    listed = [part.strip() for part in parts(text[start + 1 : end - 1], ",") if part.strip()]
    pairs = [tuple(word.strip() for word in part.split(":", 1)) if ":" in part else (part, "Self") for part in listed]
    rest = re.compile(r"\s*(?:->\s*(?P<result>(?:(?!\brequires\b|\bensures\b)[^{])+))?").match(text, end)
    function = Function(path, name, exported, pairs, (rest["result"] or "").strip())
    place = rest.end()
    while said := re.compile(r"\s*(requires|ensures)\b\*?\s*(?:\w+\s*)?(?=\{)").match(text, place):
        place = closing(text, said.end())
        getattr(function, said[1]).append(" ".join(text[said.end() + 1 : place - 1].split()))
    return function


def public():
    """Every public function of every crate."""
    for file in sorted(glob.glob("crates/*/src/**/*.rt", recursive=True)):
        _, crate, _, *inner = file[: -len(".rt")].split("/")
        modules = [word for word in inner if word not in ("lib", "main", "mod")]
        with open(file, encoding="utf-8") as source:
            text = re.sub(r"(?m)//.*$", "", source.read())
        for head in HEAD.finditer(text):
            before = text[: head.start()]
            kind = re.findall(r"(?m)^(?:impl(?:<[^>]*>)? (\w+).*|\}.*)$", before) if head["indent"] else []
            path = "::".join([crate, *modules, *([kind[-1]] if kind and kind[-1] else []), head["name"]])
            yield parsed(path, head["name"], bool("no_mangle" in head["attributes"] and head["c"]), text, head.end() - 1)
