#!/usr/bin/env python3
"""Run the board's case files: readable records, each with the answer expected.

    run_cases.py PROGRAM [CASE ..]   run PROGRAM on all cases, or on those named, and compare its whole output
    run_cases.py --bytes CASE        write the records of a case to standard output, to be piped into the board
    run_cases.py --self-test         show that wrong output and faulty case files are noticed

A case file is text in the grammar of the desk (tools/desk/grammar.py). `#` begins a comment; every other line is one of

    MAKE 1 2 2 0            -> 0 255     a record: its kind, all its fields in document 01's order; code and cited rule
    bytes 08 00 63 00*5     -> 2 255     the raw bytes of a record, hexadecimal; `00*5` is a byte five times
    novice USE rig tune     -> 0 0       a request in words; a case with one needs the library, by which names are found
    repeat 9 USE 1 1 0      -> 7 255     any of these nine times, with the same answer to each

Here every record has its answer. The answers bear no index: the lines of output are counted here. A line without an
arrow has no line of output: such lines stand only behind a torn place (code 1), which ends the reading, and in a case
whose whole output is `too long`, which has the one answer `-> too long` on its last line.
"""

import argparse
import re
import subprocess
import sys
from pathlib import Path
from typing import NamedTuple, Tuple, Union

from desk import files, grammar
from desk.club import founded
from desk.faults import Fault
from desk.library import opened
from desk.numbers import Answer, NOTHING_CITED, TOO_LONG, framed, kind_of
from desk.speaking import records_of

CASES = Path(__file__).resolve().parent.parent / "cases"
SECONDS = 60  # the time that one case may take

CAN_COME = {  # the codes that can be answered from the founding; every one of them must occur in the cases
    "torn": {1},
    "unknown": {2},
    "MAKE": {0, 3, 4, 5, 6, 7, 8, 9},
    "PUT": {0, 3, 4, 5, 6, 7, 8, 9, 10, 11},
    "TAKE": {0, 3, 4, 5, 6, 7, 8, 9, 12},
    "APPOINT": {0, 3, 4, 5, 6, 7, 8, 9, 10},
    "DISMISS": {0, 3, 4, 5, 6, 9, 12},
    "GRANT": {0, 3, 4, 5, 6, 7, 8, 9, 10},
    "WITHDRAW": {0, 3, 4, 5, 6, 9},
    "USE": {0, 3, 4, 5, 6, 7, 9},
}


class Item(NamedTuple):
    """A line of a case file: a record, how often it comes, and the answer to each."""
    line: int
    text: str
    record: bytes
    times: int
    answer: Union[Answer, str, None]  # the string is TOO_LONG; None has no line of output
    column: int  # of the record
    arrow: int  # the column of the answer, or of the line's end


class Case(NamedTuple):
    """A case file: what goes in and what must come out."""
    name: str
    items: Tuple[Item, ...]


# Reading a case file.

def subject(record):
    """What a record is to the board: torn, unknown, or one of the kinds."""
    if framed(record) != len(record):
        return "torn"
    return kind_of(record) or "unknown"


def check_answer(item):
    """A fault if the answer is none that a board could give to this record."""
    name, (code, cited) = subject(item.record), item.answer
    if code not in CAN_COME[name]:
        raise Fault(f"code {code} can't be the answer to this: {name}", item.arrow)
    if name == "USE" and code == 0:
        if cited > 63:
            raise Fault(f"an accepted USE cites a place from 0 to 63, not {cited}", item.arrow)
    elif cited != NOTHING_CITED:
        raise Fault(f"only an accepted USE cites a rule: {NOTHING_CITED} here, not {cited}", item.arrow)


def check_place(item, torn, too_long):
    """A fault if the item's answer, or its lack of one, may not stand here; torn is the torn item before it, if any."""
    if too_long:
        if item.answer is not None:
            raise Fault(f"the only answer is `{TOO_LONG}` on the last line", item.arrow)
    elif torn:
        if item.answer is not None:
            raise Fault(f"no answer here: the board stops reading at the torn place in line {torn.line}", item.arrow)
    elif item.answer is None:
        raise Fault("no answer: `-> CODE CITED` is missing", item.arrow)
    elif item.answer == TOO_LONG:
        raise Fault(f"`{TOO_LONG}` stands only on the last line", item.arrow)
    else:
        check_answer(item)
        if item.answer.code == 1 and item.times > 1:
            raise Fault("a torn place can't be repeated", item.column)


def check_torn(torn, items):
    """A fault if the bytes behind a torn place complete its record."""
    rest = assemble(item for item in items if item.line >= torn.line)
    if framed(rest):
        raise Fault(f"not torn: with the bytes behind it this is a record of {framed(rest)} bytes", torn.column)


def check_items(name, items):
    """A fault, with file, line and column, if an answer is missing or can't be."""
    too_long = bool(items) and items[-1].answer == TOO_LONG
    torn = None
    for item in items[:-1] if too_long else items:
        try:
            check_place(item, torn, too_long)
            if item.answer and item.answer.code == 1:
                torn = item
                check_torn(torn, items)
        except Fault as fault:
            raise fault.at(name, item.line) from None


def parse(name, text):
    """The case in a text; a fault names the file, the line and the column."""
    lines = grammar.lines_in(name, text)
    records = records_of(name, lines, lambda: founded(opened()))
    items = tuple(Item(line.line, line.text, record, line.times, line.answer, line.column, line.arrow)
                  for line, record in zip(lines, records))
    check_items(name, items)
    return Case(name, items)


def load(path):
    """The case in a file."""
    return parse(str(path), files.read_text(str(path)))


# What goes in and what must come out.

def assemble(items):
    """The bytes of all items, one behind the other."""
    return b"".join(item.record * item.times for item in items)


def expected(case):
    """The lines that must come out, each with the item that it answers."""
    if case.items and case.items[-1].answer == TOO_LONG:
        return [(TOO_LONG + "\n", case.items[-1])]
    lines = []
    for item in case.items:
        if item.answer:
            for _ in range(item.times):
                lines.append((f"{len(lines)} {item.answer.code} {item.answer.cited}\n", item))
    return lines


def difference(case, output):
    """The first difference between the output and the expected lines, in words; None if there is none."""
    wanted = expected(case)
    came = re.findall(r"[^\n]*\n|[^\n]+", output)  # a last line may lack its line feed
    for (want, item), line in zip(wanted, came):
        if want != line:
            return f"{case.name}:{item.line}: {item.text}: expected {want!r}, came {line!r}"
    if len(came) < len(wanted):
        want, item = wanted[len(came)]
        return f"{case.name}:{item.line}: {item.text}: expected {want!r}, came nothing more"
    if len(came) > len(wanted):
        return f"{case.name}: {len(wanted)} lines expected, but then came {came[len(wanted)]!r}"
    return None


def complaints(command, case):
    """All that is wrong with a program's run on a case, in words."""
    try:
        run = subprocess.run(command, input=assemble(case.items), capture_output=True, timeout=SECONDS)
    except subprocess.TimeoutExpired:
        return [f"{case.name}: no end within {SECONDS} seconds"]
    found = [difference(case, run.stdout.decode("ascii", "backslashreplace"))]
    if run.returncode != 0:
        found.append(f"{case.name}: exit status {run.returncode}, expected 0")
    if run.stderr:
        found.append(f"{case.name}: on standard error: {run.stderr[:200].decode('utf-8', 'backslashreplace')!r}")
    return [words for words in found if words]


def uncovered(cases):
    """The pairs of subject and code that can come from the founding and that no case has."""
    seen = {(subject(item.record), item.answer.code)
            for case in cases for item in case.items if isinstance(item.answer, Answer)}
    return [(name, code) for name, codes in CAN_COME.items() for code in sorted(codes) if (name, code) not in seen]


# The three ways to call.

def run_cases(program, paths):
    """Run the program on the cases named, or on all; all of them together must have every pair. True if all is well."""
    cases = [load(path) for path in paths or sorted(CASES.glob("*.case"))]
    if not cases:
        raise Fault(f"no case files in {CASES}")
    found = [words for case in cases for words in complaints([program], case)]
    if not paths:
        found += [f"no case has the answer {code} to this: {name}" for name, code in uncovered(cases)]
    for words in found:
        print(words)
    if not found:
        print(f"{len(cases)} cases passed")
    return not found


def printing(output, status=0, error=""):
    """A program that reads its input and then prints the given output, whatever it read."""
    script = "import sys; sys.stdin.buffer.read(); sys.stdout.write(sys.argv[1]); sys.stderr.write(sys.argv[2]); " \
             "sys.exit(int(sys.argv[3]))"
    return [sys.executable, "-c", script, output, error, str(status)]


def shows(words, *parts):
    """True if there is exactly one complaint and it has all these parts."""
    return len(words) == 1 and all(part in words[0] for part in parts)


def test_output():
    """Every way in which a program's run can be wrong is noticed."""
    case = parse("a.case", "# two records\nMAKE 1 2 2 0 -> 0 255\n\nrepeat 2 USE 9 6 2 -> 4 255  # no member\n")
    good = "0 0 255\n1 4 255\n2 4 255\n"
    assert complaints(printing(good), case) == []
    wrong = complaints(printing("0 0 255\n1 4 255\n2 9 255\n"), case)
    assert shows(wrong, "a.case:4", "USE 9 6 2", r"expected '2 4 255\n'", r"came '2 9 255\n'")
    missing = complaints(printing("0 0 255\n1 4 255\n"), case)
    assert shows(missing, "a.case:4", r"expected '2 4 255\n'", "came nothing more")
    assert shows(complaints(printing(""), case), "a.case:2", "came nothing more")
    assert shows(complaints(printing(good + "3 1 255\n"), case), "a.case: 3 lines expected", r"'3 1 255\n'")
    assert shows(complaints(printing(good + "\n"), case), "3 lines expected")
    assert shows(complaints(printing(good[:-1]), case), "a.case:4", "came '2 4 255'")
    assert shows(complaints(printing(good, status=3), case), "a.case: exit status 3")
    assert shows(complaints(printing(good, error="warning"), case), "a.case: on standard error", "warning")
    empty = parse("empty.case", "# nothing\n")
    assert complaints(printing(""), empty) == []
    assert shows(complaints(printing("\n"), empty), "empty.case: 0 lines expected")
    full = parse("full.case", "bytes 00*65536\nbytes 00 -> too long\n")
    assert complaints(printing("too long\n"), full) == []
    assert shows(complaints(printing("0 1 255\n"), full), "full.case:2", r"expected 'too long\n'")


def test_bytes():
    """Case files become the bytes that document 01 describes."""
    assert assemble(parse("a", "MAKE 1 2 2 0 -> 0 255").items) == bytes.fromhex("0800010001020200")
    assert assemble(parse("a", "APPOINT 1 2 3 4 5 6 -> 6 255").items) == bytes.fromhex("0A000400010203040506")
    assert assemble(parse("a", "repeat 2 bytes 04 00 ff*2 -> 2 255").items) == bytes.fromhex("0400ffff" * 2)
    assert assemble(parse("a", "bytes 03 00*3 -> 1 255\nDISMISS 1 0").items) == bytes.fromhex("03000000060005000100")


def test_faults():
    """Faulty case files are refused with file, line, column and reason."""
    for text, place, reason in (
        ("\nJOIN 1 2 -> 0 255", "2:6", "expected a kind of request, not '1'"),
        ("-> 0 255", "1:1", "expected a request"),
        ("MAKE 1 2 2 -> 0 255", "1:12", "MAKE takes 4 fields (sender place sort group), not 3"),
        ("MAKE 1 2 2 0 0 -> 0 255", "1:14", "MAKE takes 4 fields (sender place sort group), not 5"),
        ("PUT 1 256 0 -> 5 255", "1:7", "object must be a number from 0 to 255, not '256'"),
        ("USE 1 x 0 -> 5 255", "1:7", "gear must be a number"),
        ("bytes -> 1 255", "1:7", "expected a byte"),
        ("bytes 8 -> 1 255", "1:7", "two hexadecimal digits"),
        ("repeat -> 1 255", "1:8", "how often"),
        ("repeat 0 USE 1 1 0 -> 7 255", "1:8", "repeat must be a number"),
        ("repeat 2 repeat 2 USE 1 1 0 -> 7 255", "1:10", "expected a request"),
        ("repeat 2 bytes 00 -> 1 255", "1:1", "can't be repeated"),
        ("USE 1 1 0", "1:10", "no answer"),
        ("USE 1 1 0 -> 7", "1:14", "an answer is a code and a cited rule"),
        ("USE 1 1 0 -> 13 255", "1:14", "code must be a number from 0 to 12"),
        ("USE 1 1 0 -> 8 255", "1:11", "code 8 can't be the answer to this: USE"),
        ("USE 1 1 0 -> 0 255", "1:11", "cites a place from 0 to 63"),
        ("USE 1 1 0 -> 7 0", "1:11", "only an accepted USE cites a rule"),
        ("bytes 07 00 08 00 -> 7 255", "1:19", "code 7 can't be the answer to this: torn"),
        ("bytes 04 00 09 00 -> 3 255", "1:19", "code 3 can't be the answer to this: unknown"),
        ("bytes 05 00 09 00 -> 1 255\nbytes 00", "1:1", "not torn: with the bytes behind it"),
        ("bytes 00 -> 1 255\nUSE 1 1 0 -> 7 255", "2:11", "stops reading at the torn place in line 1"),
        ("USE 1 1 0 -> too long\nUSE 1 1 0 -> 7 255", "1:11", "only on the last line"),
        ("USE 1 1 0 -> 7 255\nbytes 00*65530 -> too long", "1:11", "the only answer is `too long`"),
    ):
        try:
            parse("bad.case", text)
        except Fault as fault:
            assert str(fault).startswith(f"bad.case:{place}: ") and reason in str(fault), (text, str(fault))
        else:
            raise AssertionError(f"no fault found in {text!r}")


def test_coverage():
    """A pair of subject and code that no case has is found."""
    missing = uncovered([parse("a", "MAKE 1 2 2 0 -> 0 255\nbytes 04 00 09 00 -> 2 255\nbytes 00 -> 1 255")])
    assert ("MAKE", 0) not in missing and ("unknown", 2) not in missing and ("torn", 1) not in missing
    assert ("MAKE", 3) in missing and ("DISMISS", 12) in missing
    assert len(missing) == sum(len(codes) for codes in CAN_COME.values()) - 3


def self_test():
    """Run the tests of this tool itself."""
    for test in (test_output, test_bytes, test_faults, test_coverage):
        test()
    print("self-test passed")


def main():
    """Read the command line and do what it says."""
    parser = argparse.ArgumentParser(description="Run the board's case files.")
    parser.add_argument("program", nargs="?", metavar="PROGRAM", help="reads records, prints a line for each")
    parser.add_argument("cases", nargs="*", metavar="CASE", help="case files; without them all in the folder cases")
    parser.add_argument("--bytes", metavar="CASE", help="write the bytes of this case to standard output")
    parser.add_argument("--self-test", action="store_true", help="test this tool")
    options = parser.parse_args()
    if not (options.program or options.bytes or options.self_test):
        parser.error("give a PROGRAM, --bytes CASE or --self-test")
    try:
        if options.self_test:
            self_test()
        elif options.bytes:
            sys.stdout.buffer.write(assemble(load(options.bytes).items))
        elif not run_cases(options.program, options.cases):
            return 1
    except Fault as fault:
        print(fault, file=sys.stderr)
        return 1
    except OSError as error:
        print(error, file=sys.stderr)
        return 1
    return 0


if __name__ == "__main__":
    sys.exit(main())
