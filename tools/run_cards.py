#!/usr/bin/env python3
"""Run the program for cards on cards that are right, damaged, too long or not there.

    run_cards.py PROGRAM       PROGRAM is the path of the built program, target/bin/card
    run_cards.py --self-test   show that programs which are wrong on purpose are noticed

Each card is written in a folder of its own, and the program is run there. What it prints, what it says on standard error and
what it leaves in the folder must be what stands below: the cards are worked by hand from document 02, and the answers to the
sample are those of the board (crates/runner/stdout).
The exit status is 0 if all of it is, and else 1, with the first difference.
"""

import argparse
import os
import subprocess
import sys
import tempfile
from pathlib import Path

from desk.grammar import record_in

ROOT = Path(__file__).resolve().parent.parent
SECONDS = 10
USAGE = b"usage: card save NAME, or card load NAME (a name of at most 4,088 bytes)\n"
NAME = "club.card"


class Wrong(Exception):
    """A difference, in one line."""


def card_of(*entries):
    """A card with these records, (kind, field ..)."""
    return b"".join(bytes([4 + len(fields), 0, kind, 0, *fields]) for kind, *fields in entries)


FOUNDING = card_of((16, 0, 1), (16, 1, 2), (17, 1, 0), (18, 0, 1, 1, 0, 0))
WARRANT_PLACE = 22  # the byte of FOUNDING that says where the one warrant stands: any of 32 places will do

# The sheet that the requests of crates/runner/stdin leave, the sample of document 01 and the lines after it.
SAMPLE = card_of(
    (16, 0, 1), (16, 1, 2), (16, 2, 2), (16, 3, 2), (16, 4, 1), (16, 5, 1), (16, 6, 3), (16, 7, 2), (16, 63, 3),
    (17, 1, 0), (17, 2, 0), (17, 3, 0), (17, 3, 4), (17, 3, 5), (17, 4, 0), (17, 5, 0), (17, 6, 5), (17, 7, 4), (17, 63, 0),
    (18, 0, 1, 1, 0, 0), (18, 1, 2, 2, 0, 0), (18, 2, 3, 3, 4, 5), (18, 3, 2, 7, 5, 0), (18, 31, 2, 3, 4, 0),
)

# 63 groups and member 63, every membership that there can be, and every place in use: the longest file.
FULL = card_of(
    *((16, x, 1) for x in range(63)), (16, 63, 2),
    *((17, x, g) for x in range(64) for g in range(63)),
    *((18, i, 1, 63, 0, 0) for i in range(32)),
    *((19, i, 0, 0, 255) for i in range(64)),
)


def run(program, words, data, folder):
    """What the program prints, and what it says on standard error. The data is bytes, or what is opened as standard input."""
    given = dict(input=data) if isinstance(data, bytes) else dict(stdin=data)
    done = subprocess.run([str(program), *words], **given, cwd=folder, capture_output=True, timeout=SECONDS, check=False)
    if done.returncode != 0:
        raise Wrong(f"card {' '.join(words)}: it ends with the status {done.returncode}")
    return done.stdout, done.stderr


def expect(about, came, want):
    """The same, or a difference in words."""
    if came != want:
        raise Wrong(f"{about}: {came[:200]!r} and not {want[:200]!r}")


class Folder:
    """A folder with one card in it, or none."""

    def __init__(self, program, card=None):
        self.program = program
        self.card = card

    def __enter__(self):
        self.folder = tempfile.TemporaryDirectory()
        self.path = Path(self.folder.name)
        if self.card is not None:
            (self.path / NAME).write_bytes(self.card)
        return self

    def __exit__(self, *_):
        self.folder.cleanup()

    def __call__(self, about, words, data, said, complaint=b"", card=None):
        """Runs the program once: what it says, and that the folder then holds this card and nothing else."""
        out, err = run(self.program, words, data, self.path)
        expect(f"{about}, printed", out, said)
        expect(f"{about}, on standard error", err, complaint)
        left = {entry.name: entry.read_bytes() for entry in self.path.iterdir() if entry.is_file()}
        expect(f"{about}, the files", sorted(left), [] if card is None else [NAME])
        if card is not None:
            expect(f"{about}, the card", left[NAME], card)


def load(program, about, card, first, data=b"", rest=b""):
    """Loads a card: its code, and what is printed for the requests behind it. The card stays as it is."""
    with Folder(program, card) as folder:
        folder(about, ["load", NAME], data, b"%d\n" % first + rest, card=card)


def saves(program):
    """What is saved, and where."""
    sample = (ROOT / "crates/runner/stdin").read_bytes()
    for about, data, card in (
        ("no requests", b"", FOUNDING),
        ("the sample", sample, SAMPLE),
        ("the sample with a torn end", sample + b"\x09", SAMPLE),
        ("65,536 bytes that are all torn", bytes(65536), FOUNDING),
    ):
        for old in (None, b"an older card"):
            with Folder(program, old) as folder:
                folder(f"{about}, saved", ["save", NAME], data, b"0 %d\n" % len(card), card=card)
    for old in (None, FOUNDING):
        with Folder(program, old) as folder:
            folder("65,537 bytes, saved", ["save", NAME], bytes(65537), b"too long\n", card=old)


def loads(program):
    """What is read, and judged from there."""
    sample = (ROOT / "crates/runner/stdin").read_bytes()
    lines = (ROOT / "crates/runner/stdout").read_bytes()
    load(program, "the founding's card, and the sample", FOUNDING, 0, sample, lines)
    load(program, "damaged bytes, and the sample", FOUNDING + b"\0", 13, sample, lines)
    load(program, "the sample's card", SAMPLE, 0)
    load(program, "the longest card", FULL, 0, record_in("MAKE 63 5 1 0"), b"0 8 255\n")
    load(program, "no bytes", b"", 0, record_in("MAKE 1 2 2 0"), b"0 4 255\n")
    load(program, "the founding's card, and 65,537 bytes", FOUNDING, 0, bytes(65537), b"too long\n")
    for length in range(1, len(FOUNDING)):
        load(program, f"the first {length} bytes of the founding's card", FOUNDING[:length], 13)
    for at, byte in enumerate(FOUNDING):
        for value in {0, 1, 2, 3, 4, 6, 8, 9, 16, 17, 18, 19, 20, 31, 32, 63, 64, 255, byte ^ 1, byte ^ 128} - {byte}:
            changed = FOUNDING[:at] + bytes([value]) + FOUNDING[at + 1:]
            code = 0 if at == WARRANT_PLACE and value < 32 else 13
            load(program, f"the founding's card with {value} for byte {at}", changed, code)


def complains(program):
    """What the program refuses to do, and says so."""
    with Folder(program) as folder:
        (folder.path / "folder").mkdir()
        for words in ([], ["save"], ["load"], ["store", NAME], ["loads", NAME], ["save", ""], ["save", NAME, NAME], ["load", "n" * 4089]):
            folder(f"card {' '.join(words)[:40]}", words, b"", b"", USAGE)
        for words, why in (
            (["load", NAME], b"No such file or directory"),
            (["load", "folder"], b"Is a directory"),
            (["save", "folder"], b"Is a directory"),
            (["save", "none/club.card"], b"No such file or directory"),
        ):
            folder(f"card {' '.join(words)}", words, b"", b"", b"%s: %s\n" % (words[1].encode(), why))
    unread = b"standard input: Is a directory\n"
    folder_as_input = os.open(ROOT, os.O_RDONLY)
    try:
        for word in ("save", "load"):
            with Folder(program, SAMPLE) as folder:
                folder(f"{word}, with a folder as standard input", [word, NAME], folder_as_input, b"", unread, card=SAMPLE)
    finally:
        os.close(folder_as_input)
    long = bytes(25377)
    with Folder(program, long) as folder:
        folder("a card of 25,377 bytes", ["load", NAME], b"", b"",
               b"%s: longer than any card, which has at most 25,376 bytes\n" % NAME.encode(), card=long)


def run_cards(program):
    """All of it; the first difference ends it."""
    assert len(FOUNDING) == 27 and len(FULL) == 25376
    for part in (saves, loads, complains):
        part(program)


# Prints what the board prints for the sample, if that is what was read.
FAKE_LINES = f"print(open({str(ROOT / 'crates/runner/stdout')!r}).read() if len(d) > 99 else '', end='')"


def self_test():
    """Programs that are wrong on purpose, each held to the part that should notice it."""
    for part, about, body in (
        (saves, "writes no card", "print('0 27')"),
        (saves, "writes the founding's card alone", f"open({NAME!r}, 'wb').write({FOUNDING!r}); print('0 27')"),
        (loads, "calls every card good", f"import sys; d = sys.stdin.buffer.read(); print(0); {FAKE_LINES}"),
        (loads, "calls every card damaged", f"import sys; d = sys.stdin.buffer.read(); print(13); {FAKE_LINES}"),
        (complains, "says nothing", ""),
        (complains, "takes every word", "print(0)"),
    ):
        with tempfile.TemporaryDirectory() as folder:
            program = Path(folder) / "card"
            program.write_text(f"#!{sys.executable}\n{body}\n")
            program.chmod(0o755)
            try:
                part(program)
            except Wrong:
                continue
            raise SystemExit(f"a program that {about} passes, and should not")
    print("self-test passed")


def main():
    parser = argparse.ArgumentParser(description=__doc__, formatter_class=argparse.RawDescriptionHelpFormatter)
    parser.add_argument("program", nargs="?", type=Path)
    parser.add_argument("--self-test", action="store_true")
    words = parser.parse_args()
    if words.self_test:
        self_test()
        return
    if words.program is None:
        parser.error("which program?")
    try:
        run_cards(words.program.resolve())
    except Wrong as wrong:
        sys.exit(f"run_cards: {wrong}")
    except (OSError, subprocess.TimeoutExpired) as fault:
        sys.exit(f"run_cards: {fault}")
    print("cards: all as they should be")


if __name__ == "__main__":
    main()
