"""What the tests share: the desk as a process, folders, and files of requests."""

import json
import os
import subprocess
import sys
import tempfile
import unittest
from pathlib import Path
from typing import Dict, List, NamedTuple, Optional

ROOT = Path(__file__).resolve().parent.parent.parent.parent
DESK = ROOT / "desk"
CASES = ROOT / "cases"
SAMPLE = ROOT / "examples" / "sample.club"
CLUB = ROOT / "examples" / "club.club"
RUNNER = ROOT / "target" / "bin" / "runner"
CARD = ROOT / "target" / "bin" / "card"
SECONDS = 60
PYTHON = (sys.executable, "-S")  # without site packages: the desk needs the standard library alone


class Ended(NamedTuple):
    """A process that has ended."""
    status: int
    out: str
    err: str
    raw: bytes


def environment(**more: str) -> Dict[str, str]:
    """The environment of a desk: compiled modules are kept below target/, so that the next process starts sooner."""
    unwanted = ("PYTHONDONTWRITEBYTECODE", "PYTHONUNBUFFERED")
    kept = {name: value for name, value in os.environ.items() if name not in unwanted}
    return {**kept, "PYTHONPYCACHEPREFIX": str(ROOT / "target" / "pycache"), **more}


def run_desk(*words, data: bytes = b"", program: Path = DESK, env: Optional[Dict[str, str]] = None, **more) -> Ended:
    """Runs the desk with these words and this standard input."""
    command = [*PYTHON, str(program), *map(str, words)]
    done = subprocess.run(command, input=data, capture_output=True, timeout=SECONDS, check=False,
                          env=env or environment(), **more)
    return Ended(done.returncode, done.stdout.decode(errors="replace"), done.stderr.decode(), done.stdout)


class DeskTest(unittest.TestCase):
    """A test with a folder of its own."""

    def setUp(self) -> None:
        """Makes the folder."""
        folder = tempfile.TemporaryDirectory()
        self.addCleanup(folder.cleanup)
        self.folder = Path(folder.name)

    def file(self, name: str, content) -> Path:
        """A file in the folder, of text or of bytes."""
        path = self.folder / name
        path.write_bytes(content if isinstance(content, bytes) else content.encode())
        return path

    def desk(self, *words, status: Optional[int] = None, **more) -> Ended:
        """Runs the desk in the folder; it never ends with a traceback, and its status is the one that is given."""
        ended = run_desk(*words, cwd=self.folder, **more)
        self.assertNotIn("Traceback", ended.err)
        if status is not None:
            self.assertEqual(ended.status, status, (words, ended.out[-500:], ended.err[-500:]))
        return ended

    def faulty(self, *words, **more) -> str:
        """What the desk says in one line on standard error when it can't read its input."""
        ended = self.desk(*words, status=2, **more)
        self.assertEqual(ended.err.count("\n"), 1, ended.err)
        return ended.err[:-1]

    def answers(self, text: str) -> List[str]:
        """The lines of `desk run` for a text, without the last."""
        return self.desk("run", "-", data=text.encode()).out.splitlines()[:-1]

    def documents(self, *words, **more) -> List[dict]:
        """The JSON documents that the desk writes, one to a line."""
        return [json.loads(line) for line in self.desk(*words, "--json", **more).out.splitlines()]
