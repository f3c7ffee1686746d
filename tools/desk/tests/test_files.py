"""What can't be read or written is told in one sentence, without a traceback, and with the right exit status."""

import os
import shutil
import signal
import subprocess
import sys
import time
import unittest

from desk.tests.support import CLUB, DESK, DeskTest, SECONDS, environment

ONE = "founder MAKE member a in club"
NOBODY = 65534


class Encodings(DeskTest):
    """Text is UTF-8, with or without a byte order mark, its lines ending in LF or CRLF."""

    def test_taken(self):
        """A mark in front and CRLF are no part of the text, and columns are counted without them."""
        path = self.file("x.club", b"\xef\xbb\xbf" + f"{ONE}\r\nfounder PUT a into club\r\n".encode())
        self.assertEqual(self.desk("run", path, status=1).out.splitlines()[-1], "2 records: 1 done, 1 refused")
        path = self.file("y.club", b"\xef\xbb\xbfJOIN\r\n")
        self.assertIn(f"{path}:1:5: ", self.faulty("run", path))

    def test_refused(self):
        """Latin-1, UTF-16, NUL bytes and lone carriage returns are told with the place of the first bad byte."""
        for content, place, what in (
            (f"{ONE}\n# J\xfcrgen\n".encode("latin-1"), "2:4", "the byte FC is not UTF-8 (is this Latin-1, or records"),
            ("# \xfc\n# x\n".encode() + b"\xff", "3:1", "the byte FF is not UTF-8"),
            ("\ufeff".encode("utf-16-le") + ONE.encode("utf-16-le"), "1:1", "this is UTF-16, by its first bytes FF FE"),
            ("\ufeff".encode("utf-16-be") + ONE.encode("utf-16-be"), "1:1", "this is UTF-16, by its first bytes FE FF"),
            (ONE.encode("utf-16-le"), "1:2", "a NUL byte stands here"),
            (f"{ONE}\n# \0".encode(), "2:3", "a NUL byte stands here"),
            (f"# old\r{ONE}\r".encode(), "1:6", "a carriage return stands here alone"),
            (bytes.fromhex("0800010001020200"), "1:2", "are these records, which `desk words` reads?"),
        ):
            with self.subTest(content=content):
                path = self.file("x.club", content)
                said = self.faulty("run", path)
                self.assertTrue(said.startswith(f"{path}:{place}: "), said)
                self.assertIn(what, said)
                self.assertIn("; expected text in UTF-8", said)

    def test_a_plain_locale(self):
        """A name that the locale can't write does not end the desk."""
        ended = self.desk("run", "-", data="founder MAKE member j\u00fcrgen in club".encode(), status=0,
                          env=environment(PYTHONIOENCODING="ascii"))
        self.assertIn(r"member j\xfcrgen is object 2", ended.out)


class Inputs(DeskTest):
    """Files of every kind."""

    def test_no_file(self):
        """A directory, a missing file, an empty name, a device that fails: each its own sentence."""
        for name, what in ((".", "it is a directory"), ("none.club", "there is no such file"),
                           ("", "there is no such file"),
                           ("none/x.club", "there is no such file"), ("/proc/self/mem", "it can't be read")):
            with self.subTest(name=name):
                self.assertIn(f": {what}", self.faulty("run", name))
        for words in (("may", "."), ("show", "none"), ("draw", "none"), ("who", "none", "a"), ("what-if", "none", "a"),
                      ("bytes", "none"), ("words", "none"), ("save", "none", "x"), ("may", "--card", "none"),
                      ("--card", "none"), ("run", "none", "--card", "none"), ("run", "/dev/null", "--card", "")):
            with self.subTest(words=words):
                self.assertTrue(self.faulty(*words).startswith("desk: "))

    def test_not_permitted(self):
        """A file that may not be read."""
        if os.getuid() != 0 or shutil.which("setpriv") is None:
            self.skipTest("only root, with setpriv, can become somebody who may not read a file")
        self.folder.chmod(0o755)
        path = self.file("x.club", ONE)
        path.chmod(0o600)
        command = ["setpriv", f"--reuid={NOBODY}", "--clear-groups", sys.executable, str(DESK), "run", str(path)]
        done = subprocess.run(command, capture_output=True, timeout=SECONDS, check=False, cwd=self.folder)
        if b"can't open file" in done.stderr:
            self.skipTest("the folder of the repository is closed to others")
        self.assertEqual(done.returncode, 2)
        self.assertEqual(done.stderr.decode().partition(";")[0], f"desk: {path}: it may not be read")

    def test_a_file_of_one_gigabyte(self):
        """It is not read to its end, and the sentence comes at once."""
        path = self.folder / "big.club"
        with open(path, "wb") as file:
            file.truncate(1 << 30)
        began = time.monotonic()
        for words, most in ((("run", path), 4194304), (("words", path), 16777216), (("may", "--card", path), 25376)):
            self.assertIn(f"{path}: it has more than {most} bytes; expected ", self.faulty(*words))
        self.assertLess(time.monotonic() - began, 20)

    def test_the_longest_text(self):
        """4 MiB are taken, and a byte more is not."""
        text = (ONE + "\n").encode().ljust(4 << 20, b"#")
        self.assertEqual(self.desk("run", self.file("x.club", text), status=0).out.count("\n"), 2)
        self.assertIn("it has more than 4194304 bytes", self.faulty("run", self.file("x.club", text + b"#")))

    def test_standard_input_and_pipes(self):
        """`-`, a FIFO and /dev/stdin are read."""
        for name in ("-", "/dev/stdin"):
            self.assertEqual(self.desk("run", name, data=ONE.encode(), status=0).out.splitlines()[-1],
                             "1 record: 1 done, 0 refused")
        fifo = self.folder / "fifo"
        os.mkfifo(fifo)
        writer = subprocess.Popen(["sh", "-c", f"echo '{ONE}' > fifo"], cwd=self.folder)
        self.desk("may", fifo, status=0)
        self.assertEqual(writer.wait(SECONDS), 0)

    def test_closed_standard_input(self):
        """A closed standard input is no empty one."""
        for words in ("run -", ""):
            done = subprocess.run(["sh", "-c", f"'{DESK}' {words} <&-"], capture_output=True, timeout=SECONDS,
                                  check=False)
            self.assertEqual((done.returncode, done.stderr.decode().partition(";")[0]),
                             (2, "desk: standard input: it is closed"))

    def test_a_name_that_ends_otherwise(self):
        """The desk speaks words: a file of any name is in words; `--` ends the options."""
        self.file("-odd.txt", ONE)
        self.desk("run", "--", "-odd.txt", status=0)


class Outputs(DeskTest):
    """Lost output is no success."""

    def shell(self, script: str) -> subprocess.CompletedProcess:
        """Runs a script in which $desk and $club stand for both."""
        return subprocess.run(["bash", "-c", script], capture_output=True, timeout=SECONDS, check=False,
                              env=environment(desk=str(DESK), club=str(CLUB)))

    def test_a_full_disk(self):
        """Every command says that its output can't be written."""
        for words in ("run $club", "may $club", "show $club", "draw $club", "who $club anna", "bytes $club", "--help",
                      "words $club", "what-if $club anna USE hf tune", "run $club --json", "run --help"):
            with self.subTest(words=words):
                done = self.shell(f"$desk {words} > /dev/full")
                said = (done.returncode, done.stderr.decode())
                self.assertEqual(said, (2, "desk: standard output can't be written: No space left on device\n"))
        for words in ("run $club", "--help"):
            done = self.shell(f"PYTHONUNBUFFERED=1 $desk {words} > /dev/full")
            self.assertEqual(done.returncode, 2)

    def test_a_closed_pipe(self):
        """A reader that has enough ends the desk without a word."""
        done = self.shell("yes 'USE 1 1 0' | head -n 20000 | $desk run - | head -n 1; echo ${PIPESTATUS[2]}")
        self.assertEqual(done.stdout.decode().splitlines()[-1], "141")
        self.assertEqual(done.stderr, b"")

    def test_a_closed_output(self):
        """A standard output that was never open."""
        done = self.shell("$desk run $club >&-")
        self.assertEqual((done.returncode, done.stderr.decode()),
                         (2, "desk: standard output is closed; expected one that can be written\n"))

    def test_interrupted(self):
        """Ctrl-C ends the desk with 130 and without a traceback."""
        process = subprocess.Popen([sys.executable, str(DESK)], stdin=subprocess.PIPE, stdout=subprocess.PIPE,
                                   stderr=subprocess.PIPE)
        process.stdin.write(f"{ONE}\n".encode())
        process.stdin.flush()
        self.assertEqual(process.stdout.readline(), b"record 0: done: member a is object 2 in club\n")
        for _ in range(SECONDS):  # Python may miss one that comes just before it waits for a line
            process.send_signal(signal.SIGINT)
            try:
                process.wait(0.5)
                break
            except subprocess.TimeoutExpired:
                pass
        _, err = process.communicate(timeout=SECONDS)
        self.assertEqual((process.returncode, err), (130, b""))


if __name__ == "__main__":
    unittest.main()
