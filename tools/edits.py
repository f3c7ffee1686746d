"""The wrong boards, as edits of the crates: how they are found, read, chosen and made.

An edit is a file of `crates/CRATE/must-fail/`, by the rule of `rt must-fail`: one or more replacements, a `file:` line
holding for the pairs of `old:` and `new:` after it.
"""

from pathlib import Path
from typing import NamedTuple, Tuple

from kit import Fault


class BadEdit(Exception):
    """An edit that cannot be made, or that does not compile."""


class Change(NamedTuple):
    """One replacement in a file of a crate."""
    file: str
    old: str
    new: str


class Edit(NamedTuple):
    """A must-fail edit."""
    crate: str
    name: str
    changes: Tuple[Change, ...]


def changes_in(text):
    """The replacements in an edit's text."""
    changes, file, old = [], "", ""
    for line in text.split("\n"):
        if line.startswith("file: "):
            file = line[len("file: "):]
        elif line.startswith("old: "):
            old = line[len("old: "):]
        elif line.startswith("new:"):
            changes.append(Change(file, old, line[len("new:"):].removeprefix(" ")))
            old = ""
    return tuple(changes)


def replaced(text, change):
    """The text with the change made: its old text must be there exactly once."""
    at = text.find(change.old) if change.old else -1
    if at < 0:
        raise BadEdit(f"an `old:` text is not in {change.file}")
    if text.find(change.old, at + len(change.old)) >= 0:
        raise BadEdit(f"an `old:` text is in {change.file} more than once")
    return text[:at] + change.new + text[at + len(change.old):]


def make(edit, tree):
    """Make an edit in a copy of the sources."""
    if not edit.changes:
        raise BadEdit("it has no pair of `old:` and `new:`")
    for change in edit.changes:
        path = tree / "crates" / edit.crate / change.file
        if ".." in Path(change.file).parts or not path.is_file():
            raise BadEdit(f"{change.file or 'its `file:` line'} is no file of the crate's sources")
        path.write_text(replaced(path.read_text("utf-8"), change), "utf-8")


def all_edits(root):
    """The edits of a repository, by crate and name. Each is in a folder whose edits are tried."""
    edits = []
    for path in sorted(root.glob("crates/*/must-fail/**/*.edit")):
        crate, *folder = path.relative_to(root / "crates").parent.parts
        if folder != ["must-fail"]:
            raise Fault(f"{path.relative_to(root)} is in no folder whose edits are tried")
        edits.append(Edit(crate, path.stem, changes_in(path.read_text("utf-8"))))
    return edits


def chosen(edits, words):
    """The edits that the words name, a crate's all or a single one's; without words all."""
    for word in words:
        if not any(word in (edit.crate, f"{edit.crate}/{edit.name}") for edit in edits):
            raise Fault(f"{word}: no crate with edits, and no edit as CRATE/NAME")
    return [edit for edit in edits if not words or {edit.crate, f"{edit.crate}/{edit.name}"} & set(words)]
