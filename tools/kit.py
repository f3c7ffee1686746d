"""Where the Rattle kit is, and what its libraries and those of a repository are made from."""

import re
import shutil
from pathlib import Path


class Fault(Exception):
    """What keeps a tool from its work, in one line."""


def home():
    """The folder of the Rattle kit, found by its command rt."""
    rt = shutil.which("rt")
    folder = rt and Path(rt).resolve().parent.parent
    if not folder or not (folder / "rlibs").is_dir():
        raise Fault("the Rattle kit is needed, and it is not found by its command rt")
    return folder


def depends(path):
    """The lines `NAME: DEP DEP ..` of a crates.txt, as a table; a word behind NAME says what kind of crate it is."""
    lines = (line.partition("#")[0].partition(":") for line in path.read_text("utf-8").splitlines())
    return {name.split()[0]: deps.split() for name, colon, deps in lines if colon}


def below(folder, name):
    """The libraries that a library of the kit uses."""
    return re.findall(r"^dep (\w+)$", (folder / f"rlibs/{name}.rlib/format").read_text("utf-8"), re.MULTILINE)


def libraries(folder, tree, direct):
    """Each library that a program with these dependencies reaches: its own dependencies and its root file, by name."""
    ours, found, todo = depends(tree / "crates.txt"), {}, ["std", *direct]
    while todo:
        name = todo.pop()
        if name in found:
            continue
        if name in ours:
            uses, root = ["core", "std", *ours[name]], tree / "crates" / name / "src/lib.rt"
        else:
            uses, root = below(folder, name), folder / "rattle" / name / "src/lib.rt"
        found[name] = uses, root
        todo += uses
    return found
