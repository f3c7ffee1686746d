"""The board as it is built in this repository, and the library's header beside the library."""

import ctypes
import re
import subprocess
import unittest

from tests.stub_kit import ROOT

PROGRAM, SHARED = ROOT / "target/bin/runner", ROOT / "target/shared/libselkaum.so"
SECONDS = 60


@unittest.skipUnless(PROGRAM.exists(), "the board is not built: ./board builds it")
class RealBoard(unittest.TestCase):
    """./board over the real kit."""

    def setUp(self):
        self.wanted = (ROOT / "crates/runner/stdout").read_bytes()

    def run_board(self, *words, **more):
        """Run ./board to its end: its status and its output."""
        run = subprocess.run([ROOT / "board", *words], capture_output=True, timeout=SECONDS, check=False, **more)
        return run.returncode, run.stdout

    def test_sample(self):
        """The sample is answered, by itself and as a file of one's own."""
        self.assertEqual(self.run_board(stdin=subprocess.DEVNULL), (0, self.wanted))
        self.assertEqual(self.run_board(ROOT / "crates/runner/stdin"), (0, self.wanted))
        self.assertEqual(self.run_board("-", input=(ROOT / "crates/runner/stdin").read_bytes()), (0, self.wanted))

    def test_length(self):
        """65,536 bytes are judged, and one more is too long."""
        self.assertEqual(self.run_board("-", input=b""), (0, b""))
        self.assertEqual(self.run_board("-", input=bytes(65536)), (0, b"0 1 255\n"))
        self.assertEqual(self.run_board("-", input=bytes(65537)), (0, b"too long\n"))
        self.assertEqual(self.run_board("-", input=bytes(1000000)), (0, b"too long\n"))

    def test_two_at_once(self):
        """Several at once all answer."""
        several = [subprocess.Popen([ROOT / "board"], stdin=subprocess.DEVNULL, stdout=subprocess.PIPE,
                                    stderr=subprocess.DEVNULL) for _ in range(4)]
        self.assertEqual([(process.communicate(timeout=SECONDS)[0], process.returncode) for process in several],
                         [(self.wanted, 0)] * 4)


def constants():
    """The numbers of the header, by their names."""
    text = (ROOT / "include/selkaum.h").read_text("utf-8")
    return {name: int(value, 0) for name, value in re.findall(r"^#define SELKAUM_(\w+) (\w+)", text, re.MULTILINE)}


@unittest.skipUnless(SHARED.exists(), "the library is not built: tools/prove library builds it")
class Header(unittest.TestCase):
    """The constants of the header are those of the library."""

    KINDS = "MAKE PUT TAKE APPOINT DISMISS GRANT WITHDRAW USE".split()

    def setUp(self):
        self.library = ctypes.CDLL(str(SHARED))
        self.number = constants()
        self.policy = self.filled("initial", self.number["POLICY_BYTES"])

    def filled(self, name, length, *words):
        """What a function writes into its last buffer; each word is bytes, handed over with their number, or a byte."""
        buffer = (ctypes.c_uint8 * length)()
        handed = []
        for word in words:
            handed += [word, ctypes.c_size_t(len(word))] if isinstance(word, bytes) else [ctypes.c_uint8(word)]
        function = getattr(self.library, f"selkaum_{name}")
        function.restype = ctypes.c_size_t
        self.assertEqual(function(*handed, buffer, ctypes.c_size_t(length)), length)
        return bytes(buffer)

    def record(self, kind, sender=1, length=None, **fields):
        """A record by the header's kinds, lengths and offsets."""
        number = self.number
        record = bytearray(length or number[f"{kind}_BYTES"])
        record[number["RECORD_LENGTH"]] = len(record)
        record[number["RECORD_KIND"]] = number[kind]
        record[number["RECORD_SENDER"]] = sender
        for name, value in fields.items():
            record[number[f"{kind}_{name}"]] = value
        return bytes(record)

    def judged(self, record):
        """Judge a record, keep the policy after it: the code and the cited rule."""
        answer = self.filled("judge", self.number["ANSWER_BYTES"], self.policy, record)
        self.policy = answer[:self.number["POLICY_BYTES"]]
        return answer[self.number["CODE"]], answer[self.number["CITED"]]

    def test_lengths(self):
        """A record of a kind has the header's length, and is a misfit with any other."""
        for kind in self.KINDS:
            with self.subTest(kind):
                fits = {length for length in range(5, 20)
                        if self.judged(self.record(kind, 200, length))[0] != self.number["MISFIT"]}
                self.assertEqual(fits, {self.number[f"{kind}_BYTES"]})
        self.assertEqual(max(self.number[f"{kind}_BYTES"] for kind in self.KINDS), self.number["LONGEST_RECORD"])

    def test_club(self):
        """Requests by the header's offsets do what they say, and the picture has it at the header's offsets."""
        n = self.number
        done, none = n["DONE"], n["NONE"]
        operations = n["TUNE_BIT"] | n["TRANSMIT_BIT"]
        for record, answer in (
            (self.record("MAKE", PLACE=2, SORT=n["MEMBER"], GROUP=0), (done, none)),
            (self.record("MAKE", PLACE=3, SORT=n["MEMBER"], GROUP=0), (done, none)),
            (self.record("MAKE", PLACE=4, SORT=n["GROUP"], GROUP=0), (done, none)),
            (self.record("MAKE", PLACE=5, SORT=n["GEAR"], GROUP=0), (done, none)),
            (self.record("PUT", OBJECT=5, GROUP=4), (done, none)),
            (self.record("TAKE", OBJECT=5, GROUP=0), (done, none)),
            (self.record("APPOINT", PLACE=1, KIND=n["MANAGER"], HOLDER=2, A=0), (done, none)),
            (self.record("APPOINT", 2, PLACE=31, KIND=n["ADMINISTRATOR"], HOLDER=3, A=0, B=4), (done, none)),
            (self.record("GRANT", 3, PLACE=63, U=0, T=4, OPERATIONS=operations), (n["OWN_GAIN"], none)),
            (self.record("MAKE", PLACE=6, SORT=n["GROUP"], GROUP=0), (done, none)),
            (self.record("GRANT", 3, PLACE=63, U=6, T=4, OPERATIONS=operations), (done, none)),
            (self.record("PUT", OBJECT=2, GROUP=6), (done, none)),
            (self.record("USE", 2, GEAR=5, OPERATION=n["TRANSMIT"]), (done, 63)),
            (self.record("USE", 2, GEAR=5, OPERATION=n["LISTEN"]), (n["NO_AUTHORITY"], none)),
            (self.record("DISMISS", PLACE=1), (done, none)),
            (self.record("DISMISS", PLACE=0), (n["ORPHAN"], none)),
        ):
            self.assertEqual(self.judged(record), answer, record)
        self.assertEqual(self.policy[n["SORTS"]:][:7], bytes([1, 2, 2, 2, 1, 3, 1]))
        self.assertEqual(self.policy[n["MEMBERSHIPS"] + 5 * n["ROW_BYTES"]:][:n["ROW_BYTES"]], bytes([16] + [0] * 7))
        for place, warrant in ((0, (n["OWNER"], 1, 0, 0)), (1, (0, 0, 0, 0)), (31, (n["ADMINISTRATOR"], 3, 0, 4))):
            start = n["WARRANTS"] + place * n["WARRANT_BYTES"]
            self.assertEqual(tuple(self.policy[start:start + n["WARRANT_BYTES"]]), warrant)
        self.assertEqual(self.policy[n["RULES"] + 63 * n["RULE_BYTES"]:], bytes([1, 6, 4, operations]))
        self.assertEqual(self.judged(self.record("WITHDRAW", 3, PLACE=63)), (done, none))
        self.assertEqual(self.policy[n["RULES"]:], bytes(n["RULE_COUNT"] * n["RULE_BYTES"]))

    def test_declared(self):
        """The header declares what the library has, and nothing else."""
        text = (ROOT / "include/selkaum.h").read_text("utf-8")
        declared = re.findall(r"^(?:size_t|uint8_t) (selkaum_\w+)\(", text, re.MULTILINE)
        command = ["nm", "-D", "--defined-only", str(SHARED)]
        symbols = subprocess.run(command, capture_output=True, timeout=SECONDS, check=True).stdout.decode()
        self.assertEqual(sorted(declared), sorted(re.findall(r"\b(selkaum_\w+)", symbols)))
