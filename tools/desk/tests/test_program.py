"""The desk as a program: called from anywhere, and the library that it has built where it needs to."""

import os
import shutil
import signal
import subprocess
import sys
import time
import unittest

from desk.library import SHARED
from desk.tests.support import CLUB, DESK, DeskTest, ROOT, SECONDS, environment, run_desk

ONE = b"founder MAKE member a in club\n"
ANSWER = "record 0: done: member a is object 2 in club\n1 record: 1 done, 0 refused\n"
PROVE = """#!/bin/sh
echo "$SELKAUM_CALLER $*" >> calls
{body}
"""


class Calling(DeskTest):
    """From any folder, by any name."""

    def test_another_folder_and_links(self):
        """A link to the desk, and a link to that, work from any folder."""
        (self.folder / "first").symlink_to(os.path.relpath(DESK, self.folder))
        (self.folder / "second").symlink_to("first")
        done = subprocess.run(["./second", "run", "-"], input=ONE, cwd=self.folder, capture_output=True,
                              timeout=SECONDS,
                              check=False, env=environment(CDPATH="/"))
        self.assertEqual((done.returncode, done.stdout.decode(), done.stderr), (0, ANSWER, b""))

    def test_an_old_python(self):
        """One sentence, in words that an old Python reads too."""
        script = f"import sys; sys.version_info = (3, 7, 2); exec(open({str(DESK)!r}).read())"
        done = subprocess.run([sys.executable, "-c", script], capture_output=True, timeout=SECONDS, check=False)
        self.assertEqual((done.returncode, done.stderr),
                         (2, b"desk: Python 3.8 or later is needed, and this is 3.7.2\n"))

    def test_the_folder_of_the_caller_is_no_module(self):
        """Files beside the caller are not taken for modules of the desk."""
        self.file("numbers.py", "raise SystemExit('not mine')")
        self.file("desk.py", "raise SystemExit('not mine')")
        self.assertEqual(self.desk("run", "-", data=ONE, status=0).out, ANSWER)


class Building(DeskTest):
    """The library is asked of tools/prove where it is not there, or older than what it is made from."""

    def setUp(self) -> None:
        """A copy of the desk with a crate of one file, and no library."""
        super().setUp()
        shutil.copy(DESK, self.folder / "desk")
        ignored = shutil.ignore_patterns("tests", "__pycache__")
        shutil.copytree(ROOT / "tools/desk", self.folder / "tools/desk", ignore=ignored)
        (self.folder / "crates/reach").mkdir(parents=True)
        self.source = self.file("crates/reach/lib.rt", "")
        self.file("crates.txt", "reach:\n")
        self.shared = self.folder / "target/shared/libselkaum.so"

    def prove(self, body: str) -> None:
        """Puts a tools/prove there that notes its calls."""
        (self.folder / "tools/prove").write_text(PROVE.format(body=body))
        (self.folder / "tools/prove").chmod(0o755)

    def run_copy(self):
        """Runs the copy."""
        return run_desk("run", "-", data=ONE, program=self.folder / "desk", cwd=self.folder)

    def calls(self) -> int:
        """How often the library was asked for."""
        path = self.folder / "calls"
        lines = path.read_text().splitlines() if path.exists() else []
        self.assertEqual(set(lines) - {"desk library"}, set())
        return len(lines)

    def test_built_once(self):
        """It is built at first, and again when a source is younger; in between nobody is asked."""
        self.prove(f"mkdir -p target/shared && [ -e target/shared/libselkaum.so ] || cp '{SHARED}' target/shared/")
        for _ in range(2):
            self.assertEqual(self.run_copy()[:3], (0, ANSWER, ""))
        self.assertEqual(self.calls(), 1)
        later = time.time() + 1
        made = self.folder / "crates/reach/out"
        made.mkdir()
        os.utime(made, (later, later))
        os.utime(made.parent, (1, 1))
        self.assertEqual(self.run_copy().status, 0)
        self.assertEqual(self.calls(), 1)
        os.utime(self.source, (later, later))
        self.assertEqual(self.run_copy().status, 0)
        self.assertEqual(self.calls(), 2)

    def test_up_to_date_after_all(self):
        """Where only a date was younger, the library is fresh once that was found out."""
        self.shared.parent.mkdir(parents=True)
        shutil.copy(SHARED, self.shared)
        os.utime(self.shared, (1, 1))
        self.prove("exit 0")
        for _ in range(2):
            self.assertEqual(self.run_copy().status, 0)
        self.assertEqual(self.calls(), 1)

    def test_failures(self):
        """Not proved is said of a failed proof alone; each other failure has its sentence."""
        for body, said in (("exit 1", "the library is not proved, so it is not used"),
                           ("exit 3", "the library could not be built: tools/prove ended with the status 3"),
                           ("exit 0", "the library could not be built: tools/prove ended with the status 0"),
                           ("mkdir -p target/shared; echo x > target/shared/libselkaum.so",
                            "the library can't be loaded: ")):
            with self.subTest(body=body):
                self.prove(body)
                ended = self.run_copy()
                self.assertEqual((ended.status, ended.out), (2, ""))
                self.assertTrue(ended.err.startswith(f"desk: {said}"), ended.err)
        shutil.rmtree(self.folder / "target")
        (self.folder / "tools/prove").unlink()
        self.assertEqual(self.run_copy().err, "desk: the library has to be built, and tools/prove can't be run: "
                                              "No such file or directory\n")

    def test_another_library(self):
        """A shared object without the entry points is told."""
        self.shared.parent.mkdir(parents=True)
        source = self.file("empty.c", "int nothing;\n")
        if shutil.which("cc") is None:
            self.skipTest("no C compiler")
        subprocess.run(["cc", "-shared", "-o", str(self.shared), str(source)], check=True, timeout=SECONDS)
        self.assertIn("desk: the library is not the one that the desk needs: ", self.run_copy().err)

    def test_ending_it_ends_what_it_started(self):
        """A desk that is ended while the library is built ends tools/prove too."""
        for number, status in ((signal.SIGTERM, 143), (signal.SIGINT, 130), (signal.SIGHUP, 129)):
            with self.subTest(signal=number):
                self.prove("trap 'echo ended >> end; exit 1' TERM; touch begun; while sleep 0.1; do :; done")
                process = subprocess.Popen([sys.executable, str(self.folder / "desk"), "run", "-"], cwd=self.folder,
                                           stdin=subprocess.DEVNULL, stdout=subprocess.PIPE, stderr=subprocess.PIPE,
                                           env=environment())
                end = time.monotonic() + SECONDS
                while not (self.folder / "begun").exists() and time.monotonic() < end:
                    time.sleep(0.05)
                process.send_signal(number)
                _, err = process.communicate(timeout=SECONDS)
                self.assertEqual((process.returncode, err), (status, b""))
                self.assertEqual((self.folder / "end").read_text(), "ended\n")
                (self.folder / "end").unlink()
                (self.folder / "begun").unlink()

    def test_words_without_a_library(self):
        """From numbers to bytes needs no library."""
        ended = run_desk("bytes", "-", data=b"MAKE 1 2 2 0", program=self.folder / "desk", cwd=self.folder)
        self.assertEqual((ended.status, ended.raw), (0, bytes.fromhex("0800010001020200")))


class Deciding(DeskTest):
    """The desk decides nothing."""

    def test_every_answer_is_from_the_library(self):
        """With a library that refuses all, all is refused: no rule is written a second time."""
        if shutil.which("cc") is None:
            self.skipTest("no C compiler")
        lying = self.file("lying.c", """
#include <stddef.h>
#include <string.h>
size_t selkaum_judge(const unsigned char *p, size_t n, const unsigned char *r, size_t m, unsigned char *a, size_t k)
{ memcpy(a, p, 960); a[960] = 11; a[961] = 255; return 962; }
""")
        subprocess.run(["cc", "-shared", "-fPIC", "-o", "liar.so", str(lying)], check=True, timeout=SECONDS,
                       cwd=self.folder)
        script = f"""
import ctypes, sys
sys.path.insert(0, {str(ROOT / 'tools')!r})
from desk import library, main
liar = ctypes.CDLL({str(self.folder / 'liar.so')!r}).selkaum_judge
class Lying(library.Library):
    def __init__(self):
        super().__init__()
        liar.argtypes, liar.restype = self.entries["judge"].argtypes, ctypes.c_size_t
        self.entries["judge"] = liar
main.opened = Lying
sys.exit(main.main(["run", {str(CLUB)!r}, "--json"]))
"""
        done = subprocess.run([sys.executable, "-c", script], capture_output=True, timeout=SECONDS, check=False)
        self.assertEqual(done.returncode, 2)
        self.assertIn(b"'radios' stands for nothing: its MAKE was not done (line 8)", done.stderr)
        self.assertEqual({line.split(b'"code": ')[1][:2] for line in done.stdout.splitlines()}, {b"11"})


if __name__ == "__main__":
    unittest.main()
