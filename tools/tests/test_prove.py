"""tools/prove, over a stub of rt: what it says, how it waits and how it ends."""

import signal

from tests.stub_kit import GOOD, SECONDS, UNCHANGED, WITH_GRANDCHILD, StubKit, lives, untimed

FIRST_TIME = "prove: proving and building the board, which takes about three minutes the first time\n"
WAITING = "prove: another command is proving or building in this folder; waiting for it to end\n"
WAIT_FOR_GO = 'while [ ! -e "$STUB/go" ]; do sleep 0.02; done\n'


class Proving(StubKit):
    """A run that ends well."""

    def prove(self, *words, **more):
        """Run tools/prove to its end."""
        return self.run_command(self.repository / "tools/prove", *words, **more)

    def test_first_time(self):
        """What takes minutes is announced, and each crate that is proved has its line on standard error."""
        status, output, said = self.prove("program")
        lines = f"{FIRST_TIME}prove: reach proved, N s\nprove: runner proved, N s\n"
        self.assertEqual((status, output, untimed(said)), (0, b"", lines))
        self.assertEqual(self.calls(), ["runner: run"])

    def test_up_to_date(self):
        """Nothing is printed where all is proved."""
        self.prove("program")
        self.script(UNCHANGED)
        self.assertEqual(self.prove("program"), (0, b"", ""))

    def test_caller(self):
        """The caller's name stands before each message."""
        status, _, said = self.prove("program", env=dict(self.environment, SELKAUM_CALLER="desk"))
        self.assertEqual(status, 0)
        self.assertTrue(all(line.startswith("desk: ") for line in said.splitlines()), said)

    def test_changed(self):
        """A proof that takes a while is announced, even if it is not the first."""
        self.prove("program")
        self.script("sleep 2.2\n" + GOOD)
        self.assertEqual(self.prove("program")[2].splitlines()[0], "prove: proving what is not proved yet")

    def test_as_it_is_done(self):
        """A crate has its line when it is proved, and not when all are."""
        self.script("echo 'rt: chose --jobs 2 for reach'\necho 'logic=proved functions=1'\n" + WAIT_FOR_GO + GOOD)
        process = self.start(self.repository / "tools/prove", "program")
        self.assertEqual(process.stderr.readline().decode(), FIRST_TIME)
        self.assertEqual(untimed(process.stderr.readline().decode()), "prove: reach proved, N s\n")
        (self.stub / "go").touch()
        self.assertEqual(process.wait(SECONDS), 0)

    def test_lost_program(self):
        """A program that is gone is put back, and one that is made anew is put in its place."""
        self.prove("program")
        program = self.repository / "target/bin/runner"
        made = program.read_bytes()
        program.unlink()
        self.script(UNCHANGED)
        self.assertEqual(self.prove("program"), (0, b"", ""))
        self.assertEqual(program.read_bytes(), made)
        self.script("printf '#!/bin/sh\\nexec rev\\n' > out/runner\n" + GOOD)
        self.assertEqual(self.prove("program")[0], 0)
        self.assertEqual(program.read_bytes(), b"#!/bin/sh\nexec rev\n")

    def test_another_program(self):
        """Each program of the repository can be made; where the kit makes none, that is said."""
        (self.repository / "crates/card/src").mkdir(parents=True)
        (self.repository / "crates/card/src/main.rt").touch()
        self.script("mkdir -p out\necho card > out/card\n")
        self.assertEqual(self.prove("program", "card")[0], 0)
        self.assertEqual(self.calls(), ["card: run"])
        self.assertEqual((self.repository / "target/bin/card").read_text(), "card\n")

    def test_log(self):
        """What was said of a crate is kept in a file, and waiting is told."""
        self.script("echo 'rt: waiting for another rt to finish in /x/crates/reach' >&2\n" + GOOD)
        self.assertIn("prove: waiting for another rt to finish in /x/crates/reach\n", self.prove("program")[2])
        log = self.repository / "target/log"
        self.assertEqual(sorted(path.name for path in log.iterdir()), ["reach.out", "runner.out"])
        self.assertEqual((log / "runner.out").read_text(), "logic=proved functions=2 axioms=2\n")

    def test_run(self):
        """`prove run` has the output and the status of rt."""
        self.script('echo "these: $*"; echo and these >&2; exit 7\n')
        self.assertEqual(self.prove("run", "check", "a b"), (7, b"these: check a b\nand these\n", ""))

    def test_lock_is_not_inherited(self):
        """What prove starts does not hold the lock."""
        self.script('ls -l "/proc/$$/fd" > "$STUB/open"\n' + GOOD)
        self.assertEqual(self.prove("program")[0], 0)
        self.assertNotIn("/crates", (self.stub / "open").read_text())


class Waiting(StubKit):
    """Two at once."""

    def test_second_waits(self):
        """The second says that it waits, and then has its turn; the two never run rt together."""
        self.script(WAIT_FOR_GO + GOOD)
        first = self.start(self.repository / "tools/prove", "program")
        self.await_(self.calls, "the first call of rt")
        second = self.start(self.repository / "tools/prove", "run", "version")
        self.assertEqual(second.stderr.readline().decode(), WAITING)
        self.assertEqual(self.calls(), ["runner: run"])
        (self.stub / "go").touch()
        self.assertEqual((first.wait(SECONDS), second.wait(SECONDS)), (0, 0))
        self.assertEqual(second.stderr.read(), b"")
        self.assertEqual(self.calls(), ["runner: run", "version"])
        self.assertFalse((self.stub / "clash").exists())

    def test_many(self):
        """Of eight at once each has its turn."""
        self.script("sleep 0.05\n" + GOOD)
        several = [self.start(self.repository / "tools/prove", "program") for _ in range(8)]
        self.assertEqual([process.wait(SECONDS) for process in several], [0] * 8)
        self.assertFalse((self.stub / "clash").exists())

    def test_ended_while_it_waits(self):
        """One that waits can be ended, and the one that it waited for goes on."""
        self.script(WAIT_FOR_GO + GOOD)
        first = self.start(self.repository / "tools/prove", "program")
        self.await_(self.calls, "the first call of rt")
        second = self.start(self.repository / "tools/prove", "program")
        self.assertEqual(second.stderr.readline().decode(), WAITING)
        second.send_signal(signal.SIGTERM)
        self.assertEqual(second.wait(SECONDS), 143)
        (self.stub / "go").touch()
        self.assertEqual(first.wait(SECONDS), 0)
        self.assertTrue(self.lock_is_free())


class Ending(StubKit):
    """What is left when prove is ended."""

    def test_signals(self):
        """All that it started is gone when it has ended."""
        self.script(WITH_GRANDCHILD)
        for number in (signal.SIGTERM, signal.SIGINT, signal.SIGQUIT, signal.SIGHUP):
            with self.subTest(number):
                process = self.start(self.repository / "tools/prove", "program")
                grandchild = self.grandchild()
                process.send_signal(number)
                self.assertEqual(process.wait(SECONDS), 128 + number)
                self.assert_nothing_left(grandchild)
                (self.stub / "grandchild").unlink()

    def test_stubborn(self):
        """What does not end when it is told to is killed."""
        self.script("trap '' TERM\n" + WITH_GRANDCHILD)
        process = self.start(self.repository / "tools/prove", "run", "ci")
        grandchild = self.grandchild()
        process.send_signal(signal.SIGTERM)
        self.assertEqual(process.wait(SECONDS), 143)
        self.assert_nothing_left(grandchild)

    def test_killed(self):
        """Even if it is killed outright, what it started ends soon."""
        self.script(WITH_GRANDCHILD)
        process = self.start(self.repository / "tools/prove", "program")
        grandchild = self.grandchild()
        process.kill()
        process.wait(SECONDS)
        self.await_(lambda: not lives(grandchild), "the end of the process below rt")
        self.await_(lambda: not list(self.temporary.iterdir()), "the end of the temporary files")
        self.assertTrue(self.lock_is_free())
