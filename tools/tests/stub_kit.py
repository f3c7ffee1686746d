"""A repository in a temporary folder with a stub of rt: the real `board` and `tools/prove` run over it in a moment."""

import fcntl
import os
import re
import shutil
import signal
import subprocess
import tempfile
import time
import unittest
from pathlib import Path

ROOT = Path(__file__).resolve().parent.parent.parent
SECONDS = 20  # the time within which whatever a test waits for must happen

# The stub fails if another one runs in the same folder, notes how it was called and in which crate's folder, and then
# does what the test says.
STUB_RT = """#!/bin/sh
exec 8> "$STUB/lock"
flock -n 8 || { : > "$STUB/clash"; echo 'rt: two at once'; exit 2; }
case $PWD in */crates/*) printf '%s: ' "${PWD##*/}" ;; esac >> "$STUB/calls"
echo "$*" >> "$STUB/calls"
. "$STUB/script"
"""

# What the stub does unless a test says otherwise: proves, makes a program that prints its input, and runs it.
GOOD = """
case $PWD in */crates/runner) ;; *) exit 0 ;; esac
mkdir -p out ../reach/out/rlib
echo 'rt: frame: begins with what a check kept in /another/crates/frame'
echo 'rt: chose --jobs 2 for reach'
echo 'fn reach::above: proved'
echo 'statements std: modules loaded=5 checked=0'
echo 'logic=proved functions=1 sum=dac8208d650f15bf'
: > ../reach/out/rlib/stamp
echo 'rt: chose --jobs 2 for runner'
echo 'logic=proved functions=2 axioms=2'
[ -e out/runner ] || printf '#!/bin/sh\\nexec cat\\n' > out/runner
chmod +x out/runner
echo 'rt: running out/runner; to give it other input, run that file yourself'
out/runner
"""
DATA = bytes(range(256)) * 3  # an input with every byte
UNCHANGED = """
echo 'rt: nothing has changed since the last proved build, by out/runner.stamp, so nothing is checked now'
echo 'rt: running out/runner; to give it other input, run that file yourself'
"""

# A process below rt that outlives a plain end of rt, and whose number the test can read.
WITH_GRANDCHILD = """
(sleep 60 & echo "$!" > "$STUB/grandchild.new"; mv "$STUB/grandchild.new" "$STUB/grandchild"; wait)
"""


class StubKit(unittest.TestCase):
    """A test with a repository, a stub of rt first on PATH, and a folder for temporary files."""

    def setUp(self):
        self.room = Path(tempfile.mkdtemp(prefix="selkaum test "))
        self.addCleanup(shutil.rmtree, self.room)
        self.room.chmod(0o755)
        self.repository, self.stub = self.room / "the club's board", self.room / "stub"
        self.temporary = self.room / "temporary"
        for folder in ("crates/runner", "tools"):
            (self.repository / folder).mkdir(parents=True)
        for folder in (self.stub / "bin", self.temporary):
            folder.mkdir(parents=True)
        (self.repository / "crates.txt").write_text("reach:\nrunner: reach\n")
        (self.repository / "crates/runner/stdin").write_bytes(b"the sample\n")
        for name in ("board", "tools/prove", "tools/follow_rt.sh"):
            shutil.copy(ROOT / name, self.repository / name)
        self.program(self.stub / "bin/rt", STUB_RT)
        self.script(GOOD)
        self.environment = dict(os.environ, PATH=f"{self.stub}/bin:{os.environ['PATH']}", STUB=str(self.stub),
                                TMPDIR=str(self.temporary))
        self.environment.pop("SELKAUM_CALLER", None)

    def program(self, path, text):
        """Write a program."""
        path.write_text(text)
        path.chmod(0o755)

    def script(self, text):
        """Say what the stub does from now on."""
        (self.stub / "script").write_text(text)

    def calls(self):
        """How the stub was called, a line for each."""
        path = self.stub / "calls"
        return path.read_text().splitlines() if path.exists() else []

    def start(self, *words, **more):
        """Start a command of the repository."""
        settings = dict(cwd=self.room, env=self.environment, stdin=subprocess.DEVNULL, stdout=subprocess.PIPE,
                        stderr=subprocess.PIPE)
        process = subprocess.Popen([str(word) for word in words], **{**settings, **more})
        self.addCleanup(self.end, process)
        return process

    def end(self, process):
        """End a process that a test left, and close its pipes."""
        if process.poll() is None:
            process.send_signal(signal.SIGTERM)
            process.wait(SECONDS)
        for pipe in (process.stdin, process.stdout, process.stderr):
            if pipe:
                pipe.close()

    def run_command(self, *words, data=None, **more):
        """Run a command to its end: its status, its output and what it said."""
        if data is not None:
            more["stdin"] = subprocess.PIPE
        process = self.start(*words, **more)
        output, said = process.communicate(data, SECONDS)
        return process.returncode, output, (said or b"").decode("utf-8", "replace")

    def await_(self, condition, what):
        """Wait until a condition holds."""
        end = time.monotonic() + SECONDS
        while not condition():
            self.assertLess(time.monotonic(), end, f"waited in vain for this: {what}")
            time.sleep(0.02)

    def grandchild(self):
        """The number of the process below rt, once it is there."""
        path = self.stub / "grandchild"
        self.await_(path.exists, "the process below rt")
        return int(path.read_text())

    def assert_nothing_left(self, grandchild):
        """No process below rt, no lock and no temporary file is left."""
        self.assertFalse(lives(grandchild), "the process below rt is still there")
        self.assertTrue(self.lock_is_free(), "the lock is still held")
        self.assertEqual(list(self.temporary.iterdir()), [])

    def lock_is_free(self):
        """Whether the lock on the folder crates can be had."""
        folder = os.open(self.repository / "crates", os.O_RDONLY)
        try:
            fcntl.flock(folder, fcntl.LOCK_EX | fcntl.LOCK_NB)
            return True
        except BlockingIOError:
            return False
        finally:
            os.close(folder)


class StubBoard(StubKit):
    """A repository that is proved already, and a folder with a file beside it."""

    def setUp(self):
        super().setUp()
        status, _, said = self.run_command(self.repository / "tools/prove", "program")
        self.assertEqual(status, 0, said)
        self.script(UNCHANGED)
        self.board = self.repository / "board"
        self.folder = self.room / "a folder"
        self.folder.mkdir()
        (self.folder / "requests").write_bytes(DATA)

    def run_board(self, *words, **more):
        """Run ./board in the folder: its status, its output and what it said."""
        return self.run_command(self.board, *words, **{"cwd": self.folder, **more})

    def shell(self, text, *words, **more):
        """Run a line of bash in the folder, in which $board is the board."""
        environment = dict(self.environment, board=str(self.board))
        return self.run_command("bash", "-c", text, "bash", *words, **{"cwd": self.folder, "env": environment, **more})

    def refusal(self, *words, **more):
        """What the board says where it has status 2 and prints nothing, without its name and the line end."""
        status, output, said = self.run_board(*words, **more)
        self.assertEqual((status, output), (2, b""), said)
        self.assertRegex(said, r"\Aboard: [^\n]*\n\Z")
        return said[len("board: "):-1]


def untimed(said):
    """What was said, without the seconds that each proof took."""
    return re.sub(r" proved, \d+ s$", " proved, N s", said, flags=re.MULTILINE)


def lives(number):
    """Whether a process is there and has not ended."""
    try:
        return Path(f"/proc/{number}/stat").read_text().rpartition(") ")[2][0] != "Z"
    except (FileNotFoundError, ProcessLookupError):
        return False
