"""The command `board`, over a stub of rt: lost output, a program that dies, a proof that fails, and how it is ended."""

import signal
import subprocess

from tests.stub_kit import DATA, GOOD, SECONDS, WITH_GRANDCHILD, StubBoard, lives, untimed


class Lost(StubBoard):
    """Output that is lost, a program that dies, a proof that fails: no success."""

    def test_lost_output(self):
        """A write error, a closed output, and a reader that went away."""
        full = "board: the answers could not be written: No space left on device\n"
        closed = "board: standard output is closed, so no answer can be written\n"
        gone = "board: standard output was closed before all answers were written\n"
        self.assertEqual(self.shell('"$board" requests > /dev/full'), (2, b"", full))
        self.assertEqual(self.shell('"$board" requests >&-'), (2, b"", closed))
        self.assertEqual(self.shell('"$board" requests <&- >&- 2>&-'), (2, b"", ""))
        line = 'yes 2> /dev/null | "$board" - | true; exit "${PIPESTATUS[1]}"'
        self.assertEqual(self.shell(line), (2, b"", gone))
        self.assertEqual(self.shell(f"trap '' PIPE; {line}"), (2, b"", gone))

    def test_closed_standard_error(self):
        """Without a standard error the answers come all the same."""
        self.assertEqual(self.shell('"$board" requests 2>&-'), (0, DATA, ""))
        self.assertEqual(self.shell('"$board" requests <&- 2>&-'), (0, DATA, ""))

    def test_dying_program(self):
        """A program that dies, or that cannot be run."""
        runner = self.repository / "crates/runner/out/runner"
        for text, sentence in (
            ("#!/bin/sh\nkill -SEGV $$\n", "the program was ended by signal 11, so there are no answers, or not all"),
            ("#!/bin/sh\nexit 3\n", r"target/bin/runner could not be run \(status 3\)"),
            ("#!/no/such/program\n", r"target/bin/runner could not be run \(status 12[67]\): .+"),
        ):
            with self.subTest(text):
                self.program(runner, text)
                self.assertRegex(self.refusal("requests"), f"\\A{sentence}\\Z")

    def test_failed_proof(self):
        """A board that is not proved is not run."""
        self.script("echo 'rt: chose --jobs 2 for judge'; echo logic=not-proved; exit 1\n")
        status, output, said = self.run_board("requests")
        self.assertEqual((status, output), (1, b""))
        self.assertEqual(said.splitlines()[-1], "board: the proof of judge failed, so the board is not proved "
                                                "(target/log/judge.out has what the prover said)")
        self.script("exit 2\n")
        self.assertEqual(self.run_board("requests")[0], 2)

    def test_first_time(self):
        """The lines of the proofs are on standard error, and the answers alone on standard output."""
        (self.repository / "crates/reach/out/rlib/stamp").unlink()
        self.script(GOOD)
        status, output, said = self.run_board("requests")
        self.assertEqual((status, output), (0, DATA))
        self.assertEqual(untimed(said),
                         "board: proving and building the board, which takes about three minutes the first time\n"
                         "board: reach proved, N s\nboard: runner proved, N s\n")


class Ending(StubBoard):
    """What is left when the board is ended."""

    def test_while_it_proves(self):
        """All that it started is gone when it has ended."""
        self.script(WITH_GRANDCHILD)
        for number in (signal.SIGTERM, signal.SIGINT, signal.SIGQUIT, signal.SIGHUP):
            with self.subTest(number):
                process = self.start(self.board, cwd=self.folder)
                grandchild = self.grandchild()
                process.send_signal(number)
                self.assertEqual(process.wait(SECONDS), 128 + number)
                self.assert_nothing_left(grandchild)
                (self.stub / "grandchild").unlink()

    def test_while_it_reads_and_writes(self):
        """It ends while it waits for its input, and while nobody takes its output."""
        process = self.start(self.board, "-", stdin=subprocess.PIPE)
        self.await_(lambda: list(self.temporary.iterdir()), "a copy of the input")
        process.send_signal(signal.SIGTERM)
        self.assertEqual(process.wait(SECONDS), 143)
        self.assertEqual(list(self.temporary.iterdir()), [])
        self.program(self.repository / "crates/runner/out/runner", '#!/bin/sh\necho "$$" > "$STUB/runner"; exec yes\n')
        process = self.start(self.board, "requests", cwd=self.folder)
        self.await_(lambda: (self.stub / "runner").exists() and (self.stub / "runner").read_text(), "the program")
        process.send_signal(signal.SIGTERM)
        self.assertEqual(process.wait(SECONDS), 143)
        self.assertFalse(lives(int((self.stub / "runner").read_text())))
        self.assertEqual(list(self.temporary.iterdir()), [])
