"""The examples of docs/REQUESTS.md: three ways to write a request mean the same, and each answer is the one told."""

import re
import subprocess
import tempfile
import unittest
from pathlib import Path

from desk import grammar

ROOT = Path(__file__).resolve().parents[2]
PAGE = ROOT / "docs" / "REQUESTS.md"
RUNNER = ROOT / "target" / "bin" / "runner"
CODE = re.compile(r"`([^`]+)`")
HEX = re.compile(r"[0-9a-f]{2}( [0-9a-f]{2})*")


def rows(heading, columns):
    """The rows of the tables below a heading that have this many columns, each as a list of cells."""
    part = PAGE.read_text(encoding="utf-8").split(f"\n## {heading}\n")[1].split("\n## ")[0]
    lines = [line.strip("|") for line in part.splitlines() if line.startswith("|")]
    cells = [[cell.strip() for cell in line.split("|")] for line in lines]
    return [row for row in cells if len(row) == columns and not set(row[0]) <= set("-: ")]


def in_code(cell):
    """What stands in backquotes in a cell."""
    return CODE.findall(cell)


def bytes_of(lines):
    """The records of lines in words or in numbers, as the desk makes them."""
    with tempfile.TemporaryDirectory() as folder:
        file = Path(folder) / "page.club"
        file.write_text("\n".join(lines) + "\n", encoding="utf-8")
        done = subprocess.run([ROOT / "desk", "bytes", file], capture_output=True, timeout=600, check=False)
    if done.returncode != 0:
        raise AssertionError(done.stderr.decode())
    return done.stdout


def answers_to(records):
    """The code and the cited rule of each record, by the proved program."""
    done = subprocess.run([RUNNER], input=records, capture_output=True, timeout=60, check=True)
    return [tuple(int(word) for word in line.split()[1:]) for line in done.stdout.splitlines()]


@unittest.skipUnless(RUNNER.is_file(), "the program is not built")
class Requests(unittest.TestCase):
    """What the page says, held to the desk and to the program."""

    def setUp(self):
        self.club = [[in_code(cell)[0] for cell in row] for row in rows("A club", 3) if in_code(row[0])]
        self.words = [words for words, _, _ in self.club]

    def test_three_ways(self):
        """Words, numbers and bytes of the club are the same records, and all are done."""
        self.assertEqual(len(self.club), 15)
        records = bytes.fromhex("".join(data for _, _, data in self.club))
        self.assertEqual(bytes_of(self.words), records)
        self.assertEqual(bytes_of([numbers for _, numbers, _ in self.club]), records)
        answers = answers_to(records)
        self.assertEqual([code for code, _ in answers], [0] * 15)
        self.assertEqual(answers[10], (0, 0))

    def test_refusals(self):
        """Each example gets the refusal in whose row it stands, on the first eleven requests."""
        table = {int(row[0]): in_code(row[3]) for row in rows("Answers", 4) if row[0].isdigit()}
        self.assertEqual(sorted(table), list(range(1, 13)))
        before = bytes_of(self.words[:11])
        for number, ways in table.items():
            for way in ways:
                with self.subTest(number=number, example=way):
                    all_of_it = before + bytes.fromhex(way) if HEX.fullmatch(way) else bytes_of(self.words[:11] + [way])
                    self.assertEqual(answers_to(all_of_it)[-1], (number, 255))

    def test_forms(self):
        """Every form of a request in words is one of the grammar."""
        texts = [text for row in rows("Records", 3) for text in in_code(row[1])]
        forms = [text for text in texts if " " in text and text.split()[1].isupper()]
        self.assertEqual(len(forms), 10)
        for text in forms:
            with self.subTest(form=text):
                self.assertIsNotNone(grammar.line_in(1, text))


if __name__ == "__main__":
    unittest.main()
