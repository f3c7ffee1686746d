"""tools/prove, over a stub of rt: each failure has its own sentence and status."""

import shutil

from tests.stub_kit import GOOD, StubKit

# What tools/prove and the stub call.
TOOLS = "bash cat chmod cmp cp flock ls mkdir mktemp mv realpath rm setsid sleep uname".split()


class Failing(StubKit):
    """Each failure has its own sentence, the last line; "not proved" is said of a failed proof alone."""

    def failure(self, script, what="program", **more):
        """The status, the last line, and all lines that prove prints."""
        self.script(script)
        status, output, said = self.run_command(self.repository / "tools/prove", what, **more)
        self.assertEqual(output, b"")
        return status, said.splitlines()[-1], said

    def test_failed_proof(self):
        """A proof that failed."""
        status, last, said = self.failure("echo 'rt: chose --jobs 2 for judge'\n"
                                          "echo 'lib.rt:7: it is not proved that ..'; echo logic=not-proved\n"
                                          "echo 'statements std: modules loaded=5 checked=0'\n"
                                          "echo 'rt: the library judge did not build, so nothing above it was checked'\n"
                                          "exit 1\n")
        self.assertEqual(status, 1)
        self.assertEqual(last, "prove: the proof of judge failed, so the board is not proved "
                               "(target/log/judge.out has what the prover said)")
        self.assertIn("lib.rt:7: it is not proved that ..\n", said)
        self.assertNotIn("statements", said)
        self.assertIn("lib.rt:7: it is not proved that ..\n",
                      (self.repository / "target/log/judge.out").read_text())

    def test_no_proof_failed(self):
        """All that is no failed proof."""
        crate = "echo 'rt: chose --jobs 2 for judge'; echo 'rattle: it ends'; exit {}\n"
        unproved = ", so the board could not be proved"
        for script, status, sentence in (
            (crate.format(1), 2, "the compiler does not take judge, so no proof of it was tried"),
            (crate.format(3), 3,
             "the prover could not tell whether judge holds, so the board is neither proved nor refuted"),
            (crate.format(256 - 9), 2, f"the prover was killed at judge, perhaps for want of memory{unproved}"),
            (crate.format(256 - 11), 2, f"the prover was ended by signal 11 at judge{unproved}"),
            (crate.format(101), 2, f"the prover failed at judge with status 101{unproved}"),
            ("echo 'rattle: short of memory'\n" + crate.format(101), 2,
             "the board could not be proved: there is too little memory"),
            ("echo 'rattle: cannot write x: No space left on device (os error 28)'\n" + crate.format(2), 2,
             "the board could not be proved: there is no room left on the disk"),
            ("echo 'rt: 1: cannot create x: Read-only file system'; exit 1\n", 2,
             "the board could not be proved: the disk can only be read"),
            ("echo 'rt: chose --jobs 2 for runner'; echo 'logic=proved functions=2'\n"
             "echo 'rt: running out/runner; to give it other input, run that file yourself'; exit 1\n", 2,
             "runner is proved, but its trial run failed, so the board is not ready"),
            ("echo 'rt: chose --jobs 2 for runner'; echo 'logic=proved functions=2'; exit 1\n", 2,
             "runner is proved, but it could not be built, so the board is not ready"),
            ("echo 'src/lib.rt:7:1: error'; echo 'rt: mend these first: no library was built'; exit 1\n", 2,
             "the compiler does not take the text, so no proof of it was tried"),
            ("echo 'rt: crates.txt: line 1: expected NAME'; exit 2\n", 2, f"rt failed with status 2{unproved}"),
            ("kill -KILL $$\n", 2, f"rt was ended by signal 9{unproved}"),
            ("exit 0\n", 2, "rt ended well, but there is no crates/runner/out/runner"),
        ):
            with self.subTest(sentence):
                self.assertEqual(self.failure(script)[:2], (status, f"prove: {sentence}"))

    def test_what_is_missing(self):
        """A machine, a command or a file that is not there."""
        bare = self.room / "bare"
        bare.mkdir()
        for tool in TOOLS:
            (bare / tool).symlink_to(shutil.which(tool))
        environment = dict(self.environment, PATH=str(bare))
        self.assertEqual(self.failure(GOOD, env=environment)[:2],
                         (2, "prove: the Rattle kit is needed, and its command rt is not found"))
        (bare / "rt").symlink_to(self.stub / "bin/rt")
        (bare / "flock").unlink()
        self.assertEqual(self.failure(GOOD, env=environment)[:2],
                         (2, "prove: the command flock (util-linux) is needed, and it is not found"))
        (bare / "uname").unlink()
        self.program(bare / "uname", "#!/bin/sh\necho Darwin arm64\n")
        self.assertEqual(self.failure(GOOD, env=environment)[:2],
                         (2, "prove: the Rattle kit compiles for x86-64 Linux, and this machine is Darwin arm64"))
        (self.repository / "crates.txt").unlink()
        self.assertEqual(self.failure(GOOD)[:2],
                         (2, f"prove: crates.txt or the folder crates is missing in {self.repository}"))
        self.assertEqual(self.calls(), [])

    def test_target(self):
        """A target that cannot be written."""
        (self.repository / "target").touch()
        self.assertEqual(self.failure(GOOD)[:2],
                         (2, "prove: the folder target cannot be written, so nothing can be proved"))

    def test_usage(self):
        """Words that mean nothing."""
        for words in ((), ("all",), ("run",), ("program", "again"), ("library", "again")):
            with self.subTest(words):
                status, _, said = self.run_command(self.repository / "tools/prove", *words)
                self.assertEqual((status, said),
                                 (2, "prove: usage: prove program [NAME] | prove library | prove run WORDS..\n"))
