"""Writes the proof files that a script beside this file prints, laid out as `rt fmt` lays them out.

With --check the script writes no file, and says which do not stand as it prints them. tools/printed asks that of each script.
"""
import os
import sys

from builds import read


def printed(files):
    """Writes the files, each a path in the repository and its text, or compares them."""
    other = [path for path, text in files.items() if not os.path.exists(path) or read(path) != text]
    if "--check" not in sys.argv:
        for path in other:
            os.makedirs(os.path.dirname(path), exist_ok=True)
            with open(path, "w", encoding="utf-8") as file:
                file.write(files[path])
    elif other:
        script = os.path.basename(sys.argv[0])
        print("".join(f"{path}: not as tools/{script} prints it\n" for path in other), end="")
        sys.exit(1)
