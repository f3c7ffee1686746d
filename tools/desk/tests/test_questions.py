"""Questions about a club: may, who, what-if and show, in words and as JSON, of a file and of a card."""

import unittest

from desk.tests.support import CLUB, DeskTest, SAMPLE

CIRCLE = b"""\
founder MAKE group a in club
founder MAKE group b in a
founder PUT a into b
founder MAKE member m in b
"""


class May(DeskTest):
    """Who may do what on which gear."""

    def test_in_words(self):
        """A line for each member and gear."""
        lines = self.desk("may", CLUB, status=0).out.splitlines()
        self.assertEqual(lines, [f"{member} on {gear}: listen, tune, transmit, turn, power"
                                 for member in ("carla", "david", "emil", "frieda") for gear in ("hf", "vhf")])

    def test_nobody(self):
        """A sentence where nobody may do anything."""
        self.assertEqual(self.desk("may", "/dev/null", status=0).out, "nobody may do anything on any gear\n")
        self.assertEqual(self.documents("may", SAMPLE), [{"permits": []}])

    def test_it_is_what_use_answers(self):
        """For every member, gear and operation: permitted exactly if a USE is done."""
        shown = self.documents("show", CLUB)[0]["objects"]
        members = [one["number"] for one in shown if one["sort"] == "member"]
        gear = [one["number"] for one in shown if one["sort"] == "gear"]
        asked = [(member, which, k) for member in members for which in gear for k in range(8)]
        self.assertEqual(len(asked), 128)
        text = CLUB.read_text() + "".join(f"USE {member} {which} {k}\n" for member, which, k in asked)
        answers = self.documents("run", "-", data=text.encode(), status=1)[:-1][-len(asked):]
        done = {use for use, answer in zip(asked, answers) if answer["code"] == 0}
        told = {(permit["member"]["number"], permit["gear"]["number"], operation["number"])
                for permit in self.documents("may", CLUB)[0]["permits"] for operation in permit["operations"]}
        self.assertEqual(told, done)
        self.assertEqual(len(done), 40)


class Who(DeskTest):
    """What one object is, and has."""

    def test_a_member(self):
        """What he owns, manages, administers and may use, what he is under, and his warrants."""
        self.assertEqual(self.desk("who", CLUB, "bela", status=0).out.splitlines(), [
            "bela is a member, object 7", "is directly in: club", "is under: club", "owns: nothing", "manages: nothing",
            "administers: operators, carla, david, emil, frieda over radios, hf, vhf", "may use: nothing",
            "holds the warrants: 2 administrator of operators over radios"])
        lines = self.desk("who", CLUB, "emil", status=0).out.splitlines()
        self.assertEqual(lines[1:3], ["is directly in: operators", "is under: club, operators"])
        self.assertEqual(lines[4:], [
            "manages: radios, hf, vhf", "administers: nothing",
            "may use: hf (listen, tune, transmit, turn, power); vhf (listen, tune, transmit, turn, power)",
            "holds the warrants: 3 manager of radios"])
        self.assertIn("owns: club, founder, operators", self.desk("who", CLUB, "founder", status=0).out)

    def test_a_group_and_gear(self):
        """Its sort, what it is under and what is under it."""
        self.assertEqual(self.desk("who", CLUB, "radios", status=0).out.splitlines(), [
            "radios is a group, object 3", "is directly in: club", "is under: club", "under it: hf, vhf"])
        self.assertEqual(self.desk("who", CLUB, "5", status=0).out.splitlines(), [
            "vhf is gear, object 5", "is directly in: radios", "is under: club, radios", "under it: nothing"])

    def test_a_circle(self):
        """On a circle each group is under the other."""
        path = self.file("x.club", CIRCLE)
        self.assertIn("is under: club, b\nunder it: b, m\n", self.desk("who", path, "a", status=0).out)

    def test_faults(self):
        """A name that nobody has, a number that is empty or off the sheet, a word of the grammar."""
        for name, what in (("belo",
                            "no object is called 'belo'; expected a name that a MAKE has given; perhaps 'bela'?"),
                           ("60", "object 60 is empty; expected one that is in use"),
                           ("256", "an object must be a number from 0 to 255, not '256'"),
                           ("in", "'in' is a word of the grammar and no name; expected a name or a number"),
                           ("a b", "'a b' is no name; expected one name or number")):
            with self.subTest(name=name):
                self.assertEqual(self.faulty("who", CLUB, name), f"desk: {what}")

    def test_json(self):
        """Numbers and words."""
        data = self.documents("who", CLUB, "bela")[0]
        self.assertEqual((data["number"], data["name"], data["sort"]), (7, "bela", "member"))
        self.assertEqual([one["number"] for one in data["administers"][0]["users"]], [2, 8, 9, 10, 11])
        self.assertEqual(data["warrants"][0]["B"], {"number": 3, "name": "radios"})
        data = self.documents("who", CLUB, "radios")[0]
        self.assertEqual([one["name"] for one in data["under it"]], ["hf", "vhf"])


class WhatIf(DeskTest):
    """A request that is judged and not kept."""

    def test_answers(self):
        """The answer in words, 0 for done and 1 for refused; words may be quoted or not."""
        self.assertEqual(self.desk("what-if", CLUB, *"founder PUT anna into operators".split(), status=0).out,
                         "done: anna is in operators\n")
        self.assertEqual(self.desk("what-if", CLUB, "gustav USE hf listen", status=1).out,
                         "refused, 9 no authority: the sender has no authority for this\n")
        self.assertEqual(self.desk("what-if", CLUB, "carla USE hf listen", status=0).out,
                         "done by rule 0: operators on radios\n")

    def test_own_gain(self):
        """What the library tells of an own gain: the first permit, or that it is no permit."""
        gain = "refused, 10 own gain: a request may not give its sender what he lacks; it would "
        self.assertEqual(self.desk("what-if", CLUB, "anna PUT anna into operators", status=1).out,
                         gain + "permit anna to use hf: listen\n")
        self.assertEqual(self.desk("what-if", CLUB, "founder APPOINT founder manager of club", status=1).out,
                         gain + "give its sender something to own, to manage or to administer\n")
        data = self.documents("what-if", CLUB, "anna PUT anna into operators", status=1)[0]
        self.assertEqual((data["code"], data["word"], data["permit"]["gear"]["name"]), (10, "own gain", "hf"))

    def test_an_expected_answer(self):
        """An answer may be expected of it too."""
        ended = self.desk("what-if", CLUB, "gustav USE hf listen -> done by 0", status=1)
        self.assertEqual(ended.err, "request:1:22: came 9 255 (no authority); expected 0 0 (done)\n")

    def test_faults(self):
        """The place in the request; no request at all is a matter of usage."""
        self.assertEqual(self.faulty("what-if", CLUB, "anna", "PUT", "hfx", "into", "club").partition(";")[0],
                         "request:1:10: no object is called 'hfx'")
        self.assertIn("give a FILE (or --card CARD) and a REQUEST", self.desk("what-if", CLUB, status=2).err)


class Show(DeskTest):
    """The sheet in words."""

    def test_in_words(self):
        """Objects with numbers, sorts and groups; warrants; rules."""
        self.assertEqual(self.desk("show", SAMPLE, status=0).out.splitlines(), [
            "objects", "   0 club       group", "   1 founder    member  in club", "   2 trainer    member  in club",
            "   3 keeper     member  in club, operators, radios", "   4 operators  group   in club",
            "   5 radios     group   in club", "   6 rig        gear    in radios",
            "   7 novice     member  in operators",
            "  63 spare      gear    in club", "warrants", "   0 founder is owner of club",
            "   1 trainer is manager of club",
            "   2 keeper is administrator of operators over radios", "   3 novice is manager of radios",
            "  31 keeper is manager of operators", "rules"])
        self.assertIn("   1 operators on radios: turn, power\n", self.desk("show", CLUB, status=0).out)

    def test_json(self):
        """The same with numbers."""
        data = self.documents("show", CLUB)[0]
        self.assertEqual([len(data[key]) for key in ("objects", "warrants", "rules")], [13, 4, 2])
        self.assertEqual(data["rules"][1], {"place": 1, "U": {"number": 2, "name": "operators"},
                                            "T": {"number": 3, "name": "radios"},
                                            "operations": [{"number": 3, "name": "turn"},
                                                           {"number": 4, "name": "power"}]})


class Usage(DeskTest):
    """The command line."""

    def test_wrong_words(self):
        """What is no command, or lacks its words, has the status 2."""
        for words in (("nix",), ("run",), ("may",), ("show",), ("draw",), ("who", CLUB), ("who",),
                      ("who", CLUB, "a", "b"),
                      ("save", CLUB), ("words",), ("bytes",), ("run", CLUB, "more"), ("--nix",),
                      ("--history", "x", "may", CLUB),
                      ("what-if", CLUB, "--nix", "a")):
            with self.subTest(words=words):
                self.assertIn("usage: desk", self.desk(*words, status=2).err)

    def test_options_anywhere(self):
        """Options stand before, between and behind the words."""
        told = self.desk("who", CLUB, "anna", "--json", status=0).out
        self.assertEqual(self.desk("who", CLUB, "--json", "anna", status=0).out, told)
        self.assertEqual(self.desk("--json", "who", CLUB, "anna", status=0).out, told)

    def test_help(self):
        """Help is on standard output, and tells how each kind is written."""
        ended = self.desk("--help", status=0)
        self.assertEqual(ended.err, "")
        self.assertIn("SENDER APPOINT MEMBER administrator of USERS over GEAR [= PLACE]", ended.out)
        self.assertIn("usage: desk run", self.desk("run", "--help", status=0).out)


if __name__ == "__main__":
    unittest.main()
