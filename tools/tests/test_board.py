"""The command `board`, over a stub of rt whose program prints its input: what is read, and what is refused."""

import os
import resource
import subprocess

from tests.stub_kit import DATA, SECONDS, StubBoard

SAMPLE = "board: no file is named, so these are the answers to the sample (crates/runner/stdin)\n"
NOT_READ = "board: standard input is not read without -\n"
NOBODY = ["setpriv", "--reuid=65534", "--regid=65534", "--clear-groups"]


class Names(StubBoard):
    """Which input is read."""

    def test_files(self):
        """A name is relative to the caller's folder, and may be any name."""
        for name in ("-x", "-", "--help", "new\nline", "é", "records.club.bytes"):
            (self.folder / name).write_bytes(DATA)
            with self.subTest(name):
                self.assertEqual(self.run_board("--", name), (0, DATA, ""))
        self.assertEqual(self.run_board("requests"), (0, DATA, ""))
        self.assertEqual(self.run_board(self.folder / "requests", cwd="/"), (0, DATA, ""))

    def test_standard_input(self):
        """Standard input is read where it is asked for."""
        for name in ("-", "/dev/stdin"):
            with self.subTest(name):
                self.assertEqual(self.run_board(name, data=DATA), (0, DATA, ""))
        with open(self.folder / "requests", "rb") as file:
            self.assertEqual(self.run_board("-", stdin=file), (0, DATA, ""))
        self.assertEqual(self.run_board("-"), (0, b"", ""))

    def test_pipes(self):
        """A FIFO and a substituted process are read."""
        os.mkfifo(self.folder / "fifo")
        self.assertEqual(self.shell('cat requests > fifo & "$board" fifo'), (0, DATA, ""))
        self.assertEqual(self.shell('"$board" <(cat requests)'), (0, DATA, ""))

    def test_sample(self):
        """Without a name it is the sample, and that is said; so is it that standard input is not read."""
        self.assertEqual(self.run_board(), (0, b"the sample\n", SAMPLE))
        self.assertEqual(self.shell('"$board" <&-'), (0, b"the sample\n", SAMPLE))
        self.assertEqual(self.run_board(data=DATA), (0, b"the sample\n", SAMPLE + NOT_READ))
        with open(self.folder / "requests", "rb") as file:
            self.assertEqual(self.run_board(stdin=file), (0, b"the sample\n", SAMPLE + NOT_READ))

    def test_links(self):
        """The board can be called by a link, a relative one and a chain of them too, on PATH, and with CDPATH set."""
        links = self.room / "links"
        links.mkdir()
        (links / "absolute").symlink_to(self.board)
        (links / "relative").symlink_to(os.path.relpath(self.board, links))
        (self.folder / "chain").symlink_to("../links/relative")
        for link in (links / "absolute", links / "relative", "./chain", "../links/../a folder/chain"):
            with self.subTest(link):
                self.assertEqual(self.run_command(link, "requests", cwd=self.folder), (0, DATA, ""))
        self.assertEqual(self.shell('CDPATH=/:.. "$board" requests'), (0, DATA, ""))
        self.assertEqual(self.shell('PATH="$PWD:$PATH"; chain requests'), (0, DATA, ""))
        self.assertEqual(self.shell('cd /; CDPATH=/ bash "${board#/}" "$1"', self.folder / "requests"), (0, DATA, ""))

    def test_too_much(self):
        """No more than 65,537 bytes are read, so that an endless input has an end."""
        status, output, said = self.shell('yes | "$board" -')
        self.assertEqual((status, len(output), said), (0, 65537, ""))

    def test_words(self):
        """A file in words is the desk's."""
        for name in ("a.club", "a b.case", "-c.club"):
            (self.folder / name).touch()
        self.assertEqual(self.refusal("a.club"),
                         f"a.club is in words, and the command that runs it, desk, is not in {self.repository}")
        self.program(self.repository / "desk", '#!/bin/sh\nprintf "<%s>" "$@"\nexit 5\n')
        self.assertEqual(self.run_board("a.club"), (5, b"<run><a.club>", ""))
        self.assertEqual(self.run_board("a b.case"), (5, b"<run><a b.case>", ""))
        self.assertEqual(self.run_board("--", "-c.club"), (5, b"<run><./-c.club>", ""))


class Refusals(StubBoard):
    """What cannot be run has one sentence each, and status 2."""

    def test_names(self):
        """Nothing, a folder, a link to nothing, an empty name."""
        (self.folder / "dangling").symlink_to("nowhere")
        (self.folder / "folder.club").mkdir()
        for name, sentence in (
            ("", "the name of the file is empty"),
            ("missing", "there is no file missing"),
            ("missing.club", "there is no file missing.club"),
            ("mis\nsing", r"there is no file $'mis\nsing'"),
            ("requests/below", "there is no file requests/below"),
            ("dangling", "dangling is a link that leads to no file"),
            (".", ". is a folder, and no file of requests"),
            ("folder.club", "folder.club is a folder, and no file of requests"),
        ):
            with self.subTest(name):
                self.assertEqual(self.refusal(name), sentence)

    def test_unreadable(self):
        """A file that may not be read."""
        if os.getuid() == 0 and subprocess.run([*NOBODY, "true"], check=False, timeout=SECONDS).returncode != 0:
            self.skipTest("root reads every file, and nobody cannot be had here")
        (self.folder / "secret").write_bytes(DATA)
        (self.folder / "secret").chmod(0)
        drop = NOBODY if os.getuid() == 0 else []
        status, output, said = self.run_command(*drop, self.board, "secret", cwd=self.folder)
        self.assertEqual((status, output, said), (2, b"", "board: secret may not be read\n"))

    def test_usage(self):
        """Options that there are not, and two files."""
        self.assertEqual(self.refusal("-x"), "-x is no option; `board --help` tells what there is")
        self.assertEqual(self.refusal("--version"), "--version is no option; `board --help` tells what there is")
        self.assertEqual(self.refusal("a", "b"), "one file at a time, not 2; `board --help` tells more")

    def test_help(self):
        """Help is on standard output, with status 0 if it could be written."""
        for word in ("-h", "--help"):
            status, output, said = self.run_board(word)
            self.assertEqual((status, said), (0, ""))
            self.assertTrue(output.startswith(b"usage: board [FILE | -]\n"))
        self.assertEqual(self.shell('"$board" --help > /dev/full'), (2, b"", "board: the help could not be written\n"))

    def test_lost_input(self):
        """An input that is closed, or whose reading fails."""
        closed = "standard input is closed, so nothing can be read from it"
        for line, sentence in (
            ('"$board" - <&-', closed),
            ('"$board" /dev/stdin <&-', closed),
            ('"$board" - < .', "standard input cannot be read: Is a directory"),
            ('"$board" - 0> /dev/null', "standard input cannot be read: Bad file descriptor"),
            ('"$board" "/proc/$PPID/mem"', "/proc/[0-9]+/mem (cannot be read: Input/output error|may not be read)"),
        ):
            with self.subTest(line):
                status, output, said = self.shell(line)
                self.assertEqual((status, output), (2, b""))
                self.assertRegex(said, f"\\Aboard: {sentence}\n\\Z")

    def test_no_room_for_a_copy(self):
        """Where there is no room for the copy of the input, it is not judged in part."""
        (self.folder / "large").write_bytes(bytes(60000))
        status, output, said = self.run_board(
            "large", preexec_fn=lambda: resource.setrlimit(resource.RLIMIT_FSIZE, (4096, 4096)))
        self.assertEqual((status, output), (2, b""))
        self.assertIn("board: the input could not be copied to a temporary file: ", said)
        self.assertEqual(self.refusal("large", env=dict(self.environment, TMPDIR="/no/such/folder")),
                         "no temporary folder can be made")
