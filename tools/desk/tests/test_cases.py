"""The desk beside the board: the same answers on all cases, the same cards, and words that give the records back."""

import json
import os
import subprocess
import sys
import unittest
from concurrent.futures import ThreadPoolExecutor
from pathlib import Path

from desk import grammar, speaking
from desk.club import founded
from desk.library import Library
from desk.numbers import TOO_LONG
from desk.tests.support import CARD, CASES, CLUB, DeskTest, ROOT, RUNNER, SAMPLE, SECONDS, run_desk

FILES = (*sorted(CASES.glob("*.case")), SAMPLE, CLUB)
CORES = 2
MOST = 1 << 14  # bytes of a case that are told in words and back: longer ones repeat a record


def lines_of(path: Path):
    """The lines of a file in words."""
    return grammar.lines_in(path.name, path.read_text())


def on_board(records: bytes) -> str:
    """What the board prints."""
    return subprocess.run([str(RUNNER)], input=records, capture_output=True, timeout=SECONDS,
                          check=True).stdout.decode()


@unittest.skipUnless(RUNNER.exists(), "the board is not built")
class BesideTheBoard(DeskTest):
    """`desk run` and the board's program."""

    def agreement(self, path: Path):
        """What the desk and the board say to the records of a file, each as a text."""
        documents = [json.loads(line) for line in run_desk("run", path, "--json").out.splitlines()[:-1]]
        desk = "".join(f"{one['record']} {one['code']} {one['cited']}\n" for one in documents)
        library = Library()
        return desk, on_board(speaking.in_bytes(path.name, lines_of(path), lambda: founded(library)))

    def test_all_cases(self):
        """The same codes and cited rules, record by record; what is too long for the board is told as such."""
        with ThreadPoolExecutor(CORES) as pool:
            found = list(pool.map(self.agreement, FILES))
        self.assertGreater(len(found), 70)
        for path, (desk, board) in zip(FILES, found):
            with self.subTest(case=path.name):
                if board == f"{TOO_LONG}\n":
                    self.assertEqual(lines_of(path)[-1].answer, TOO_LONG)
                else:
                    self.assertEqual(desk, board)

    def test_expected_answers_of_the_cases_are_met(self):
        """No answer is told as another than the expected one; `too long` is expected where the board says so."""
        for name in ("sample", "hand_over", "torn_middle_length_one", "input_full_torn_tail"):
            self.assertEqual(self.desk("run", CASES / f"{name}.case").err, "")
        err = self.desk("run", CASES / "input_too_long_by_one.case", status=1).err
        self.assertEqual(err, "desk: the records have 65537 bytes, and the board takes 65536 at once: "
                              "it would answer `too long`\n")

    def test_run_cases_takes_words(self):
        """A file in words with an answer to every line is a case."""
        command = [sys.executable, str(ROOT / "tools/run_cases.py"), str(RUNNER), str(SAMPLE)]
        done = subprocess.run(command, capture_output=True, timeout=SECONDS, check=False)
        self.assertEqual((done.returncode, done.stdout, done.stderr), (0, b"1 cases passed\n", b""))
        command = [sys.executable, str(ROOT / "tools/run_cases.py"), "--bytes", str(SAMPLE)]
        done = subprocess.run(command, capture_output=True, timeout=SECONDS, check=False)
        self.assertEqual(done.stdout, (ROOT / "crates/runner/stdin").read_bytes())


class RoundTrip(DeskTest):
    """From records to words and back."""

    def test_all_cases(self):
        """The words for the records of every case give the same records; so do bytes that are no record."""
        library = Library()

        def begin():
            """A club at its founding."""
            return founded(library)

        for path in FILES:
            with self.subTest(case=path.name):
                records = speaking.in_bytes(path.name, lines_of(path), begin)[:MOST]
                text = "\n".join(speaking.in_words(begin(), records))
                self.assertEqual(speaking.in_bytes("words", grammar.lines_in("words", text), begin), records)

    def test_by_processes(self):
        """`desk bytes` and `desk words`, one behind the other."""
        for path in (CLUB, CASES / "own_gain_by_put.case", CASES / "unknown_kind.case",
                     CASES / "torn_middle_length_one.case"):
            records = self.desk("bytes", path, status=0).raw
            words = self.desk("words", self.file("records", records), status=0).raw
            self.assertEqual(self.desk("bytes", self.file("again.club", words), status=0).raw, records)
            self.assertEqual(self.desk("words", "-", data=records, status=0).raw, words)

    def test_words(self):
        """What is made has a plain name from its MAKE on; what has none is told in numbers, or as bytes."""
        text = """\
MAKE 1 2 2 0
MAKE 1 2 2 0
MAKE 1 9 1 0
MAKE 1 3 7 0
APPOINT 1 1 2 2 0 0
APPOINT 1 5 1 2 9 0
APPOINT 1 1 2 2 9 4
PUT 2 200 9
GRANT 2 0 9 9 0
GRANT 2 4 9 9 255
USE 2 2 6
USE 2 2 77
DISMISS 1 5
DISMISS 1 6
WITHDRAW 1 3
bytes 06 00 63 00 00 00
bytes 09
"""
        records = self.desk("bytes", "-", data=text.encode(), status=0).raw
        self.assertEqual(self.desk("words", "-", data=records, status=0).out, """\
founder MAKE member member2 in club
founder MAKE member 2 in club
founder MAKE group group9 in club = 9
MAKE 1 3 7 0
founder APPOINT member2 manager of club
founder APPOINT member2 owner of group9 = 5
APPOINT 1 1 2 2 9 4
member2 PUT 200 into group9
GRANT 2 0 9 9 0
member2 GRANT group9 group9 all = 4
member2 USE member2 6
member2 USE member2 77
founder DISMISS member2 owner of group9
founder DISMISS warrant 6
founder WITHDRAW rule 3
bytes 06 00 63 00 00 00
bytes 09
""")

    def test_json(self):
        """Both ways as JSON."""
        self.assertEqual(self.documents("bytes", "-", data=b"founder MAKE member a in club"),
                         [{"length": 8, "bytes": "0800010001020200"}])
        self.assertEqual(self.documents("words", "-", data=bytes.fromhex("0800010001020200ff")),
                         [{"lines": ["founder MAKE member member2 in club", "bytes FF"]}])

    def test_a_warning(self):
        """Records that are too long for the board are written, with a warning."""
        ended = self.desk("bytes", "-", data=b"repeat 9363 USE 1 1 0", status=0)
        self.assertEqual(len(ended.raw), 65541)
        self.assertIn("it would answer `too long`", ended.err)


class Cards(DeskTest):
    """A club on a card."""

    @unittest.skipUnless(CARD.exists(), "the program for cards is not built")
    def test_the_same_card(self):
        """`desk save` writes, byte for byte, the card that the program for cards writes."""
        for path in (SAMPLE, CLUB, CASES / "full_objects.case", CASES / "full_rules.case",
                     CASES / "full_warrants.case"):
            with self.subTest(file=path.name):
                records = self.desk("bytes", path, status=0).raw
                subprocess.run([str(CARD), "save", "board.card"], input=records, cwd=self.folder, timeout=SECONDS,
                               check=True, stdout=subprocess.DEVNULL)
                out = self.desk("save", path, "desk.card", status=0).out
                card = (self.folder / "board.card").read_bytes()
                self.assertEqual((self.folder / "desk.card").read_bytes(), card)
                self.assertEqual(out, f"done: the card desk.card has {len(card)} bytes\n")

    def test_read_again(self):
        """The sheet of the card is the one that was saved; only the names are plain ones."""
        self.desk("save", CLUB, "club.card", status=0)
        before, after = (self.documents("show", *words)[0] for words in ((CLUB,), ("--card", "club.card")))
        self.assertEqual([one["name"] for one in after["objects"][:5]],
                         ["club", "founder", "group2", "group3", "gear4"])
        for one in (*before["objects"], *after["objects"]):
            one["in"] = [group["number"] for group in one["in"]]
            del one["name"]
        self.assertEqual(before["objects"], after["objects"])
        self.assertEqual(self.documents("save", "/dev/null", "again.card", "--card", "club.card"),
                         [{"code": 0, "word": "done", "length": 208, "card": "again.card"}])
        self.assertEqual((self.folder / "again.card").read_bytes(), (self.folder / "club.card").read_bytes())

    def test_questions_of_a_card(self):
        """Every question can be asked of a card."""
        self.desk("save", CLUB, "club.card", status=0)
        self.assertIn("member8 on gear4: listen", self.desk("may", "--card", "club.card", status=0).out)
        self.assertIn("member6 is a member, object 6", self.desk("who", "--card", "club.card", "member6", status=0).out)
        ended = self.desk("what-if", "--card", "club.card", "member6 PUT 6 into group2", status=1)
        self.assertIn("refused, 10 own gain", ended.out)
        self.assertIn('label="member6"', self.desk("draw", "--card", "club.card", status=0).out)

    def test_damaged(self):
        """What is no card is damaged, and nothing is run."""
        for content in (b"no card", b"\0"):
            said = self.faulty("may", "--card", self.file("x.card", content))
            self.assertTrue(said.endswith("x.card: 13 damaged: it is no card"), said)
        self.assertEqual(self.desk("show", "--card", self.file("x.card", b""), status=0).out,
                         "objects\nwarrants\nrules\n")

    def test_what_a_card_replaces(self):
        """No FIFO, no device, no file in words and not the file that it is made from; a link stays a link."""
        fifo, words = self.folder / "fifo", self.file("own.club", "founder MAKE member ann in club\n")
        os.mkfifo(fifo)
        self.assertIn("fifo: it is no plain file", self.faulty("save", CLUB, fifo))
        self.assertTrue(fifo.is_fifo())
        self.assertIn("own.club: it is the file that the card is made from", self.faulty("save", words, words))
        self.assertIn("own.club: a name that ends so is of a file in words", self.faulty("save", CLUB, words))
        plain = self.file("own", words.read_bytes())
        self.assertIn("own: it is the file that the card is made from", self.faulty("save", plain, plain))
        self.assertEqual(plain.read_bytes(), words.read_bytes())
        link, card = self.folder / "link", self.file("old.card", b"old")
        link.symlink_to("old.card")
        self.desk("save", CLUB, link, status=0)
        self.assertTrue(link.is_symlink())
        self.assertEqual(card.stat().st_size, 208)

    def test_refusals_in_the_file(self):
        """A refusal that the file does not expect, and an answer that is not the expected one, are told: status 1."""
        refused = self.file("refused.club", "founder PUT founder into club\n")
        expected = self.file("expected.club", "founder PUT founder into club  -> already so\n")
        other = self.file("other.club", "founder MAKE member ann in club  -> own gain\n")
        for words in (("may",), ("show",), ("draw",)):
            with self.subTest(words=words):
                self.assertIn("refused.club: 1 request refused", self.desk(*words, refused, status=1).err)
                self.assertEqual(self.desk(*words, expected, status=0).err, "")
                self.assertIn("came 0 255 (done); expected 10 255 (own gain)", self.desk(*words, other, status=1).err)
        self.assertIn("1 request refused", self.desk("who", refused, "founder", status=1).err)
        self.assertIn("1 request refused", self.desk("save", refused, "x.card", status=1).err)
        self.assertEqual((self.folder / "x.card").stat().st_size, 27)

    def test_saving_fails(self):
        """An old card stays, and nothing is left beside it, where the new one can't be written or made."""
        old = self.file("old.card", b"old")
        bad = self.file("bad.club", "founder PUT")
        self.faulty("save", bad, old)
        self.assertIn(".: it is a directory", self.faulty("save", CLUB, "."))
        self.assertIn("none/x.card: it can't be written: No such file or directory",
                      self.faulty("save", CLUB, "none/x.card"))
        self.assertIn("there is no such file", self.faulty("save", CLUB, ""))
        self.assertEqual(sorted(path.name for path in self.folder.iterdir()), ["bad.club", "old.card"])
        self.assertEqual(old.read_bytes(), b"old")
        self.desk("save", CLUB, old, status=0)
        self.assertEqual((old.stat().st_size, old.stat().st_mode & 0o777), (208, 0o600))


if __name__ == "__main__":
    unittest.main()
