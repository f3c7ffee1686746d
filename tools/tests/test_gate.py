"""The gate, over a stub of rt and of all else that it calls: what it asks of `rt ci`, and how it ends."""

import shutil

from tests.stub_kit import ROOT, StubKit

OK = "rt: ok; handles allowed: none; must-fail edits: 186 refused{}; every proof and must-fail edit was done in this run"
LAST = "201 passed, 0 failed"

# A stub of rt. `ci` makes the programs and says what the test wants; `run` and `lib` make what they are for.
SCRIPT = """
case $1 in
ci)
    for name in runner card queue_run; do
        mkdir -p "crates/$name/out"
        printf '#!/bin/sh\\n' > "crates/$name/out/$name"
    done
    cat "$STUB/said"
    grep -q ' 0 failed$' "$STUB/said"
    ;;
run) printf '#!/bin/sh\\n' > out/runner ;;
lib) mkdir -p out && echo archive > out/libexport.a ;;
esac
"""

# In place of a compiler: it makes a program that ends well.
CC = """#!/bin/sh
while [ "$1" != -o ]; do shift; done
printf '#!/bin/sh\\n' > "$2"
chmod +x "$2"
"""


class Gate(StubKit):
    """`.ci/run`."""

    def setUp(self):
        super().setUp()
        (self.repository / ".ci").mkdir()
        (self.repository / "crates/export/src").mkdir(parents=True)
        shutil.copy(ROOT / ".ci/run", self.repository / ".ci/run")
        for name in ("python3", "cargo"):
            self.program(self.stub / "bin" / name, f'#!/bin/sh\necho "{name} $*" >> "$STUB/calls"\n')
        self.program(self.stub / "bin/cc", CC)
        self.script(SCRIPT)

    def gate(self, *said):
        """Run the gate where `rt ci` says these lines: its status, its lines and what it said on standard error."""
        (self.stub / "said").write_text("".join(f"{line}\n" for line in said))
        status, output, complaint = self.run_command(self.repository / ".ci/run")
        return status, output.decode().splitlines(), complaint

    def test_passed(self):
        """It runs a plain `rt ci` before all else of the kit, all other checks after it or before, and ends with its line."""
        status, lines, _ = self.gate("rt: reach proved", OK.format(""), LAST)
        self.assertEqual((status, lines), (0, ["rt: reach proved", OK.format(""), LAST]))
        calls = self.calls()
        self.assertEqual([call for call in calls if call.split()[0] not in ("python3", "cargo")],
                         ["ci", "version", "export: lib", "runner: run"])
        before, after = calls[:calls.index("ci")], calls[calls.index("ci"):]
        for check in ("check_map.py", "reach_by_hand.py --check", "try_boards.py --self-test", "cargo fmt --check"):
            self.assertTrue(any(check in call for call in before), check)
        for check in ("run_cases.py target/bin/runner", "run_cards.py target/bin/card", "-s tools/tests",
                      "-s tools/desk/tests", "cargo test --release"):
            self.assertTrue(any(check in call for call in after), check)

    def test_failed(self):
        """Where `rt ci` fails the gate does, at once, and its last line is that of `rt ci`."""
        status, lines, _ = self.gate("rt: FAILED: reach", "200 passed, 1 failed")
        self.assertEqual((status, lines[-1]), (1, "200 passed, 1 failed"))
        self.assertEqual(self.calls()[-1], "ci")

    def test_bad_boards(self):
        """A wrong board that could not be tried fails the gate, though it fails nothing in `rt ci`."""
        for said in ((OK.format(", 1 bad"), LAST), (OK.format(", 3 of them only by a limit, 12 bad"), LAST), (LAST,)):
            status, lines, complaint = self.gate(*said)
            self.assertEqual(status, 1)
            self.assertNotEqual(lines[-1:], [LAST])
            self.assertIn("gate: rt ci tells of wrong boards that could not be tried", complaint)
            self.assertEqual(self.calls()[-1], "ci")
        self.assertEqual(self.gate(OK.format(", 3 of them only by a limit"), LAST)[0], 0)

    def test_other_failures(self):
        """A check that fails after `rt ci` fails the gate, which then does not end with its line."""
        for name in ("python3", "cargo"):
            self.program(self.stub / "bin" / name, '#!/bin/sh\n[ ! -e target/bin/runner ]\n')
            status, lines, _ = self.gate(OK.format(""), LAST)
            self.assertEqual(status, 1)
            self.assertNotEqual(lines[-1:], [LAST])
            self.program(self.stub / "bin" / name, "#!/bin/sh\n")
            shutil.rmtree(self.repository / "target")
