"""The prompt, at a pseudo-terminal and from a pipe."""

import errno
import fcntl
import os
import pty
import select
import signal
import subprocess
import termios
import time
import unittest

from desk.tests.support import CLUB, DESK, DeskTest, PYTHON, SAMPLE, environment

PROMPT = "desk> "
SECONDS = 15
UP = "\x1b[A"


def take_terminal() -> None:
    """Makes standard input the terminal of a new session, so that Ctrl-C there is a signal."""
    fcntl.ioctl(0, termios.TIOCSCTTY, 0)


class Terminal:
    """A desk at a pseudo-terminal."""

    def __init__(self, folder, *words):
        self.mine, theirs = pty.openpty()
        self.said = ""
        env = environment(TERM="xterm", INPUTRC="/dev/null", COLUMNS="200", LINES="50")
        self.process = subprocess.Popen([*PYTHON, str(DESK), *map(str, words)], stdin=theirs, stdout=theirs,
                                        stderr=theirs, cwd=folder, env=env, start_new_session=True,
                                        preexec_fn=take_terminal)
        os.close(theirs)

    def read(self, until: str) -> str:
        """What comes up to some text; an error if it does not come in time."""
        end = time.monotonic() + SECONDS
        while until not in self.said:
            if not select.select([self.mine], [], [], max(0, end - time.monotonic()))[0]:
                raise AssertionError(f"{until!r} did not come, but {self.said!r}")
            part = self.part()
            if not part:
                raise AssertionError(f"it ended before {until!r} came, with {self.said!r}")
            self.said += part
        came, _, self.said = self.said.partition(until)
        return came

    def part(self) -> str:
        """Some of what it writes; nothing at its end."""
        try:
            return os.read(self.mine, 4096).decode(errors="replace")
        except OSError as error:
            if error.errno != errno.EIO:
                raise
            return ""

    def type(self, text: str) -> None:
        """Types something."""
        os.write(self.mine, text.encode())

    def answer(self, line: str) -> str:
        """Types a line, and what comes up to the next prompt."""
        self.type(line + "\n")
        return self.read(PROMPT)

    def end(self) -> int:
        """The exit status, once it has ended by itself; else it is ended."""
        try:
            end = time.monotonic() + SECONDS
            while select.select([self.mine], [], [], max(0, end - time.monotonic()))[0]:
                part = self.part()
                if not part:
                    break
                self.said += part
            return self.process.wait(SECONDS)
        finally:
            self.process.kill()
            self.process.wait()
            os.close(self.mine)


class AtTheTerminal(DeskTest):
    """What is typed is answered at once."""

    def terminal(self, *words) -> Terminal:
        """A desk at its first prompt."""
        terminal = Terminal(self.folder, *words)
        self.addCleanup(terminal.process.kill)
        self.assertIn("`help` tells what can be typed", terminal.read(PROMPT))
        return terminal

    def test_answers(self):
        """Requests, an error that does not end the prompt, questions, and Ctrl-D."""
        terminal = self.terminal()
        self.assertIn("record 0: done: member ann is object 2 in club\r\n",
                      terminal.answer("founder MAKE member ann in club"))
        self.assertIn("standard input:2:13: no object is called 'anm'", terminal.answer("founder PUT anm into club"))
        self.assertIn("record 1: refused, 8 already so", terminal.answer("founder PUT ann into club"))
        self.assertIn("ann is a member, object 2\r\n", terminal.answer("who ann"))
        self.assertIn("nobody may do anything on any gear\r\n", terminal.answer("may"))
        self.assertNotIn("record", terminal.answer("   # nothing"))
        terminal.type("\x04")
        self.assertEqual(terminal.end(), 2)

    def test_interrupted(self):
        """Ctrl-C drops the line that is being typed, and the club stays."""
        terminal = self.terminal()
        terminal.answer("founder MAKE member ann in club")
        terminal.type("founder PUT ann in")
        terminal.read("founder PUT ann in")
        terminal.type("\x03")
        terminal.read(PROMPT)
        self.assertIn("ann is a member, object 2\r\n", terminal.answer("who ann"))
        terminal.type("\x04")
        self.assertEqual(terminal.end(), 0)
        self.assertNotIn("Traceback", terminal.said)

    def test_statuses(self):
        """0 if all is done, 1 if something was refused."""
        for lines, last, status in (((), "quit\n", 0), (("founder MAKE member a in club",), "\x04", 0),
                                    (("founder PUT founder into club",), "quit\n", 1)):
            with self.subTest(lines=lines):
                terminal = self.terminal()
                for line in lines:
                    terminal.answer(line)
                terminal.type(last)
                self.assertEqual(terminal.end(), status)

    def test_completion(self):
        """Kinds behind a sender, names, operations and commands."""
        terminal = self.terminal()
        for typed, done in (("fou\tMA\t", "founder MAKE "),
                            ("founder USE fo\ttransm\t", "founder USE founder transmit "),
                            ("wha\tfounder WITH\t", "what-if founder WITHDRAW "), ("who clu\t", "who club "),
                            ("founder APPOINT founder adm\t", "founder APPOINT founder administrator ")):
            with self.subTest(typed=typed):
                terminal.type(typed)
                self.assertNotIn("record", terminal.read(done))
                terminal.type("\x15")  # takes the line away
        terminal.answer("founder MAKE member zacharias in club")
        terminal.type("zach\tUSE club tu\t\t")
        terminal.read("zacharias USE club tu")
        self.assertIn("tune", terminal.read("turn"))
        terminal.type("\x15quit\n")
        self.assertEqual(terminal.end(), 0)

    def test_history(self):
        """The last line comes back; it is kept in a file only where one is named."""
        terminal = self.terminal()
        terminal.answer("founder PUT founder into club")
        self.assertIn("record 1: refused, 8", terminal.answer(UP))
        terminal.type("quit\n")
        self.assertEqual(terminal.end(), 1)
        self.assertEqual(list(self.folder.iterdir()), [])
        terminal = self.terminal("--history", "lines")
        terminal.answer("who founder")
        terminal.type("quit\n")
        self.assertEqual(terminal.end(), 0)
        self.assertIn("who founder\n", (self.folder / "lines").read_text())
        terminal = self.terminal("--history", "lines")
        self.assertIn("founder is a member", terminal.answer(UP + UP))
        terminal.type("quit\n")
        self.assertEqual(terminal.end(), 0)

    def test_a_history_that_cant_be_kept(self):
        """It is told, and the prompt's status stays."""
        terminal = self.terminal("--history", "none/lines")
        terminal.type("quit\n")
        self.assertIn("can't be written", terminal.read("No such file or directory"))
        self.assertEqual(terminal.end(), 0)

    def test_ended(self):
        """A signal ends the prompt without a traceback."""
        terminal = self.terminal()
        terminal.process.send_signal(signal.SIGTERM)
        self.assertEqual(terminal.end(), -signal.SIGTERM)
        self.assertNotIn("Traceback", terminal.said)


class FromAPipe(DeskTest):
    """The same without the text of the prompt."""

    def test_a_file(self):
        """The answers are those of `desk run`."""
        run = self.desk("run", SAMPLE)
        ended = self.desk(data=SAMPLE.read_bytes(), status=run.status)
        self.assertEqual(ended.out.splitlines(), run.out.splitlines()[:-1])
        self.assertEqual(ended.err, "")

    def test_questions(self):
        """What-if keeps nothing; a card is saved and loaded; help, show and draw."""
        text = b"""\
what-if founder MAKE member ann in club
founder MAKE member ann in club
save ann.card
founder MAKE member bob in club
load ann.card
show
what-if member2 USE member2 tune
draw
help
quit
founder MAKE member never in club
"""
        out = self.desk(data=text, status=0).out
        self.assertEqual(out.splitlines()[:5], [
            "done: member ann is object 2 in club", "record 0: done: member ann is object 2 in club",
            "done: the card ann.card has 39 bytes", "record 1: done: member bob is object 3 in club",
            "done: the club on ann.card has 3 objects"])
        self.assertIn("   2 member2  member  in club\nwarrants\n", out)
        self.assertIn("refused, 7 wrong sort", out)
        self.assertIn("digraph club {\n", out)
        self.assertIn("Questions: may, who NAME, what-if REQUEST, show, draw", out)
        self.assertNotIn("never", out)
        self.assertNotIn(PROMPT, out)

    def test_faulty_questions(self):
        """Words too many or too few, a card that is none, a place in the request behind `what-if`."""
        self.file("bad.card", b"bad")
        text = b"who\nwhat-if\nsave\nload\nmay x\nquit now\nload bad.card\nload none\nwho nobody\n" \
               b"  what-if founder PUT x into club\n" \
               b"what-if # nothing\nfounder MAKE member J\xfcrgen in club\nfounder MAKE member a\0 in club\n"
        told = self.desk(data=text, status=2).err.splitlines()
        for line, said in zip((
            "standard input:1:1: `who` alone; expected a name behind it",
            "standard input:2:1: `what-if` alone; expected a request",
            "standard input:3:1: `save` alone", "standard input:4:1: `load` alone",
            "standard input:5:1: 'x' behind `may`; expected nothing",
            "standard input:6:1: 'now' behind `quit`; expected nothing",
            "desk: bad.card: 13 damaged: it is no card", "desk: none: there is no such file",
            "desk: no object is called 'nobody'",
            "standard input:10:23: no object is called 'x'", "standard input:11:1: `what-if` alone",
            "standard input:12:22: the byte FC is not UTF-8", "standard input:13:22: a NUL byte stands here",
        ), told):
            self.assertTrue(said.startswith(line), (said, line))
        self.assertEqual(len(told), 13)

    def test_torn_lines(self):
        """Each line is a list of its own: a torn one is answered, and the next is read."""
        out = self.desk(data=b"bytes 08 00\nfounder MAKE member a in club\n", status=1).out
        self.assertEqual([line.partition("  #")[0] for line in out.splitlines()],
                         ["record 0: refused, 1 torn: these bytes are no whole record",
                          "record 1: done: member a is object 2 in club"])

    def test_json_and_a_card(self):
        """Answers as JSON, from a card."""
        self.desk("save", CLUB, "club.card", status=0)
        documents = self.documents("--card", "club.card", data=b"member6 PUT member7 into group2\nmay\n")
        self.assertEqual((documents[0]["code"], documents[0]["text"]), (0, "done: member7 is in group2"))
        self.assertIn("member7", [permit["member"]["name"] for permit in documents[1]["permits"]])

    def test_an_expected_answer(self):
        """An answer that is not the expected one is told, with the status 1."""
        ended = self.desk(data=b"founder MAKE member a in club -> orphan\n", status=1)
        self.assertEqual(ended.err, "standard input:1:31: came 0 255 (done); expected 12 255 (orphan)\n")


if __name__ == "__main__":
    unittest.main()
