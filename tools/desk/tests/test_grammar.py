"""Faults of a line: where, what, and what was expected. The prompt takes many lines in one process."""

import unittest

from desk.tests.support import CASES, DeskTest, SAMPLE, run_desk

FAULTS = (  # a line, the column of its fault, and a part of what is said
    ("JOIN", 5, "the line ends here; expected the sender's request: MAKE, PUT"),
    ("founder make member a in club", 9, "expected a kind of request, not 'make' (kinds are in capitals)"),
    ("founder JOIN club", 9, "expected a kind of request, not 'JOIN'"),
    ("-> 0 255", 1, "expected a request here"),
    ("MAKE member a in club", 6, "in words the sender comes first"),
    ("MAKE 1 2 2", 11, "MAKE takes 4 fields (sender place sort group), not 3"),
    ("MAKE 1 2 2 0 0", 14, "MAKE takes 4 fields (sender place sort group), not 5"),
    ("PUT 1 256 0", 7, "object must be a number from 0 to 255, not '256'"),
    ("256 PUT 1 into 0", 1, "the sender must be a number from 0 to 255"),
    ("founder MAKE radio a in club", 14, "'radio' is no sort; expected group, member, gear"),
    ("founder MAKE member in in club", 21, "'in' is a word of the grammar and no name"),
    ("founder MAKE member 1a in club", 21, "'1a' is no name"),
    ("founder MAKE member a! in club", 21, "'a!' is no name"),
    ("founder MAKE member " + "a" * 65 + " in club", 21, "at most 64"),
    ("founder MAKE member transmit in club", 21, "'transmit' is a word of the grammar and no name"),
    ("founder MAKE member show in club", 21, "'show' is a word of the grammar and no name"),
    ("founder MAKE member a into club", 23, "'into' stands here; expected `in`: SENDER MAKE"),
    ("founder MAKE member a in club =", 32, "expected a place behind `=`"),
    ("founder MAKE member a in club = b", 33, "the place behind `=` must be a number from 0 to 255, not 'b'"),
    ("founder MAKE member 9 in club = 9", 33, "object 9 has its number already"),
    ("founder MAKE member a in club 9", 31, "'9' is one word too many"),
    ("founder PUT founder in club", 21, "'in' stands here; expected `into`: SENDER PUT OBJECT into GROUP"),
    ("founder PUT founder", 20, "the line ends here; expected `into`"),
    ("founder TAKE founder into club", 22, "expected `from`: SENDER TAKE OBJECT from GROUP"),
    ("founder APPOINT founder king of club", 25, "'king' is no warrant; expected owner, manager, administrator"),
    ("founder APPOINT founder manager club", 33, "'club' stands here; expected `of`"),
    ("founder APPOINT founder manager of club over club", 41, "'over' is one word too many"),
    ("founder APPOINT founder administrator of club", 46, "expected `over`"),
    ("founder DISMISS warrant x", 25, "the place of the warrant must be a number"),
    ("founder DISMISS founder manager of club", 9, "no warrant stands by which founder is manager of club"),
    ("founder GRANT club club", 24, "no operation stands here; expected one or more"),
    ("founder GRANT club club shout", 25, "'shout' is no operation; expected listen, tune"),
    ("founder GRANT club club tune tune", 30, "'tune' is given twice"),
    ("founder GRANT club club 8", 25, "an operation must be a number from 0 to 7"),
    ("founder WITHDRAW club club", 9, "no rule is in use for club on club; expected one that is"),
    ("founder WITHDRAW rule", 22, "expected the place of the rule"),
    ("founder USE founder", 20, "the line ends here; expected an operation"),
    ("founder USE founder 256", 21, "an operation must be a number from 0 to 255"),
    ("bytes", 6, "expected a byte"),
    ("bytes 8", 7, "'8' is no byte; expected two hexadecimal digits"),
    ("bytes 00*0", 7, "the count behind * must be a number from 1 to"),
    ("bytes 00*99999999999", 7, "the count behind * must be a number from 1 to 16777216, not '99999999999'"),
    ("bytes 00*9000000 00*9000000", 18, "more than 16777216 bytes"),
    ("repeat", 7, "expected how often"),
    ("repeat 0 USE 1 1 0", 8, "repeat must be a number from 1 to 65536, not '0'"),
    ("repeat 99999999999 USE 1 1 0", 8, "repeat must be a number from 1 to 65536, not '99999999999'"),
    ("repeat 2 repeat 2 USE 1 1 0", 10, "`repeat` stands here a second time"),
    ("repeat 2", 9, "expected a request here"),
    ("USE 1 1 0 -> 7", 14, "'7' is no answer; an answer is a code and a cited rule"),
    ("USE 1 1 0 ->", 13, "'' is no answer"),
    ("USE 1 1 0 -> 13 255", 14, "code must be a number from 0 to 12, not '13'"),
    ("USE 1 1 0 -> done", 14, "expected `done by` and a rule's place, for a USE"),
    ("founder USE 1 0 -> done by 64", 28, "the rule must be a number from 0 to 63"),
    ("PUT 1 1 0 -> done by 0", 14, "expected `done`"),
    ("PUT 1 1 0 -> own  goal", 14, "code must be a number"),
    ("founder PUT nobody into club", 13, "no object is called 'nobody'; expected a name that a MAKE has given"),
    ("founder PUT fuonder into club", 13, "perhaps 'founder'?"),
    ("fonder PUT founder into club", 1, "no object is called 'fonder'"),
    ("founder MAKE group club in club", 20,
     "'club' already stands for object 0 (at the founding); expected a new name"),
)

TAKEN = """\
founder MAKE member j\u00fcrgen in club#no space before a comment
founder\tMAKE  group   g-1_x in club=9
j\u00fcrgen USE g-1_x 5
MAKE 1 3 2 0->0 255
bytes 07 00 08 00 01 09 00
repeat 2 1 USE 9 listen -> wrong sort
"""


class Faults(DeskTest):
    """What is no request is told with its place; the desk goes on at the prompt, and ends with the status 2."""

    def test_faults(self):
        """Each fault is one line with its column."""
        text = "".join(line + "\n" for line, _, _ in FAULTS)
        ended = self.desk(data=text.encode(), status=2)
        told = ended.err.splitlines()
        self.assertEqual(len(told), len(FAULTS))
        for number, ((line, column, part), said) in enumerate(zip(FAULTS, told), 1):
            with self.subTest(line=line):
                self.assertTrue(said.startswith(f"standard input:{number}:{column}: "), said)
                self.assertIn(part, said)
        self.assertEqual(ended.out, "")

    def test_a_fault_in_a_file(self):
        """A line that is no request keeps the whole file from being run; its name stands in front."""
        path = self.file("my club.club", "founder MAKE member a in club\n\n  founder PUT a in club\n")
        self.assertEqual(self.faulty("run", path),
                         f"{path}:3:17: 'in' stands here; expected `into`: SENDER PUT OBJECT into GROUP")
        self.assertEqual(self.desk("run", path).out, "")

    def test_too_many_bytes(self):
        """Counts that are small one by one can't fill the memory."""
        text = b"bytes 00*16000000\nrepeat 65536 bytes 00*100000\n"
        said = self.faulty("run", "-", data=text)
        self.assertEqual(said, "standard input:2:1: the records up to here have more than 16777216 bytes; "
                               "expected fewer in one file")

    def test_what_is_taken(self):
        """Spaces, tabs, comments, numbers for names, letters of any language, and all forms beside each other."""
        ended = self.desk("run", "-", data=TAKEN.encode(), status=1)
        self.assertEqual(ended.err, "")
        self.assertEqual(ended.out.splitlines()[-1], "7 records: 3 done, 4 refused")
        self.assertIn("record 0: done: member j\u00fcrgen is object 2 in club", ended.out)

    def test_one_letter_written_in_two_ways(self):
        """A letter with a mark of its own and the same letter in one are one name."""
        text = "founder MAKE member ju\u0308rgen in club\nj\u00fcrgen USE club tune\n"
        self.assertEqual(self.desk("run", "-", data=text.encode(), status=1).err, "")

    def test_all_cases_are_taken(self):
        """All of `cases/` is in the grammar."""
        for path in (CASES / "sample.case", CASES / "input_full.case", CASES / "torn_middle_length_one.case"):
            self.assertEqual(run_desk("run", path).err, "")


class Names(DeskTest):
    """A name stands for a number from its MAKE on."""

    def test_bound_once(self):
        """A name that is bound is an error in a file, with the place of its MAKE."""
        text = b"founder MAKE member a in club\n# more\nfounder MAKE group a in club\n"
        said = self.faulty("run", "-", data=text)
        self.assertEqual(said, "standard input:3:20: 'a' already stands for object 2 (line 1); expected a new name")

    def test_a_refused_make_binds_nothing(self):
        """The name can be given again; until then it stands for nothing, and the desk knows why."""
        refused = "founder MAKE member a in club = 64\n"
        self.assertEqual(self.answers(refused + "founder MAKE member a in club\na USE a tune\n")[1],
                         "record 1: done: member a is object 2 in club")
        said = self.faulty("run", "-", data=(refused + "a USE a tune\n").encode())
        self.assertIn("standard input:2:1: 'a' stands for nothing: its MAKE was not done (line 1)", said)

    def test_not_before_its_make(self):
        """A name is unknown before its MAKE; what was judged before is told."""
        ended = self.desk("run", "-", data=b"founder MAKE group g in club\na USE g 1\nfounder MAKE member a in club\n",
                          status=2)
        self.assertEqual(ended.out, "record 0: done: group g is object 2 in club\n")
        self.assertEqual(ended.err,
                         "standard input:2:1: no object is called 'a'; expected a name that a MAKE has given\n")

    def test_numbers_for_names(self):
        """A plain number may stand wherever a name may, whatever is there."""
        text = "1 MAKE member 5 in 0\n5 PUT 200 into 0\n1 APPOINT 5 manager of 0 = 3\n5 USE 5 200\n" \
               "member5 USE member5 0\n"
        self.assertEqual([line.partition(":")[2][:12] for line in self.answers(text)],
                         [" done: membe", " refused, 5 ", " done: membe", " refused, 5 ", " refused, 7 "])

    def test_a_plain_name_that_is_taken(self):
        """An object whose plain name another has is told by its number, and has no name."""
        text = "founder MAKE gear member9 in club\nMAKE 1 9 2 0\n9 USE member9 tune\n"
        self.assertEqual(self.answers(text)[1], "record 1: done: a member is object 9 in club")
        self.assertIn("   9 object 9  member  in club\n", self.desk("show", "-", data=text.encode()).out)

    def test_full_tables(self):
        """Where no place is free the desk says so; a place behind `=` can still be sent."""
        many = "".join(f"founder MAKE group g{n} in club\n" for n in range(62))
        said = self.faulty("run", "-", data=(many + "founder MAKE group more in club\n").encode())
        self.assertEqual(said,
                         "standard input:63:9: all 64 objects are in use; expected a free place, or one behind `=`")
        out = self.answers(many + "founder MAKE group more in club = 63\n")
        self.assertIn("record 62: refused, 8 already so", out[-1])
        posts = b"founder APPOINT founder owner of club\n" * 32
        said = self.faulty("run", "-", data=posts)
        self.assertEqual(said,
                         "standard input:32:9: all 32 warrants are in use; expected a free place, or one behind `=`")
        rules = (b"founder MAKE member a in club\nfounder APPOINT a manager of club\n"
                 b"a APPOINT founder administrator of club over club\n" + b"founder GRANT club club tune\n" * 65)
        said = self.faulty("run", "-", data=rules)
        self.assertEqual(said, "standard input:68:9: all 64 rules are in use; expected a free place, or one behind `=`")

    def test_the_sample_has_its_names(self):
        """The names of the sample stand for document 01's numbers."""
        objects = self.documents("show", SAMPLE)[0]["objects"]
        self.assertEqual([(one["number"], one["name"]) for one in objects],
                         [(0, "club"), (1, "founder"), (2, "trainer"), (3, "keeper"), (4, "operators"), (5, "radios"),
                          (6, "rig"), (7, "novice"), (63, "spare")])


if __name__ == "__main__":
    unittest.main()
