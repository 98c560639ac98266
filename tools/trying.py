"""A copy of a crate in which wrong builds are proved, for the tools beside this file."""
import functools
import glob
import hashlib
import os
import re
import shutil
import subprocess
import tempfile

import builds

PARTS = ("src", "specs", "proofs")


def stands_on():
    """Each crate of crates.txt, with the libraries that it names."""
    lines = (line.split("#")[0].partition(":") for line in builds.read("crates.txt").split("\n"))
    return {head.split()[0]: names.split() for head, colon, names in lines if colon}


def plain(path):
    """A file's text without comments, imports and layout: none of these changes what the prover says of a wrong build."""
    lines = re.sub(r"//.*" if path.endswith(".rt") else r"--.*", "", builds.read(path)).split("\n")
    return "\n".join(" ".join(line.split()) for line in lines if line.strip() and not re.match(r" *(pub |ghost )*use ", line))


@functools.lru_cache(maxsize=None)
def sum_of(crate):
    """A sum of the kit, the crate and what it sees of those below it: not how their functions' goals are answered."""
    named, found, todo = stands_on(), [], [crate]
    while todo:
        one = todo.pop(0)
        if one in named and one not in found:
            found.append(one)
            todo += named[one]
    told = hashlib.sha256(subprocess.run(["rt", "version"], capture_output=True, check=True).stdout)
    for one in sorted(found):
        told.update(repr((one, sorted(named[one]))).encode())
        for part in PARTS:
            for path in sorted(glob.glob(f"crates/{one}/{part}/**/*.*t", recursive=True)):
                if one == crate or not re.search(r"/(Answers|Invariants)\.antt$", path):
                    told.update(f"{path}\n{plain(path)}\n".encode())
    return told.digest()


def sums(crate, edit):
    """A sum of all that says what the prover makes of an edit: the kit, the crates, the edit."""
    return hashlib.sha256(sum_of(crate) + open(edit, "rb").read()).hexdigest()[:20]


def linked(one, other):
    """What was proved of a declaration by a second name, where that can be made: a check replaces such a file, and changes none."""
    try:
        if one.endswith(".oantt"):
            return os.link(one, other)
    except OSError:
        pass
    return shutil.copy2(one, other)


class Copy:
    """A copy of a crate, outside the checkout. It is proved over the libraries and the proofs that `rt check` left in the checkout."""

    def __init__(self, crate, jobs=1):
        self.crate = crate
        run = subprocess.run(["tools/built", crate], stdout=subprocess.PIPE, text=True, check=False)
        self.kept = os.path.abspath(f"crates/{crate}/out/incremental")
        if run.returncode or not os.path.isdir(self.kept):
            subprocess.run(["rt", "check"], cwd=f"crates/{crate}", stdout=subprocess.DEVNULL, stderr=subprocess.STDOUT, check=False)
        kit = os.path.dirname(subprocess.run(["rt", "doc"], capture_output=True, text=True, check=True).stdout.strip())
        self.words = [f"{kit}/bin/rattle", "check", *run.stdout.split("\n")[:-1], "--jobs", str(jobs)]
        self.room = tempfile.mkdtemp(prefix="wrong-builds-")
        for part in PARTS:
            if os.path.isdir(f"crates/{crate}/{part}"):
                shutil.copytree(f"crates/{crate}/{part}", f"{self.room}/{part}")

    def said(self, texts):
        """What the prover says of the crate with these texts, by their paths in the tree, in place of its own."""
        inside = {path.split("/", 2)[2]: text for path, text in texts.items()}
        for path, text in inside.items():
            with open(f"{self.room}/{path}", "w", encoding="utf-8") as out:
                out.write(text)
        over = tempfile.mkdtemp(prefix="wrong-builds-kept-")
        try:
            if os.path.isdir(self.kept):
                shutil.copytree(self.kept, f"{over}/kept", copy_function=linked)
            how = {"stdout": subprocess.PIPE, "stderr": subprocess.STDOUT, "text": True, "errors": "replace"}
            return subprocess.run([*self.words, "--incremental", f"{over}/kept"], cwd=self.room, check=False, **how).stdout
        finally:
            shutil.rmtree(over, ignore_errors=True)
            for path in inside:
                shutil.copyfile(f"crates/{self.crate}/{path}", f"{self.room}/{path}")

    def __enter__(self):
        return self

    def __exit__(self, *_):
        shutil.rmtree(self.room, ignore_errors=True)


def applied(some):
    """The texts that these builds make, together, of the crate's files."""
    texts = {}
    for build in some:
        build.applied(texts)
    return texts
