"""Requests of each kind are answered in words, with their numbers, and the exit status tells what came of them."""

import json
import unittest

from desk.tests.support import CLUB, DeskTest, ROOT, SAMPLE

SAMPLE_ANSWERS = """\
record 0: done: member trainer is object 2 in club
record 1: done: member keeper is object 3 in club
record 2: done: group operators is object 4 in club
record 3: done: group radios is object 5 in club
record 4: done: gear rig is object 6 in radios
record 5: done: member novice is object 7 in operators
record 6: done: trainer is manager of club (warrant 1)
record 7: done: keeper is administrator of operators over radios (warrant 2)
record 8: done: operators on radios: tune, transmit (rule 0)
record 9: done by rule 0: operators on radios  # novice USE rig transmit
record 10: refused, 9 no authority: the sender has no authority for this  # keeper USE rig transmit
record 11: done: keeper is in operators
record 12: done by rule 0: operators on radios  # keeper USE rig transmit
record 13: refused, 10 own gain: a request may not give its sender what he lacks  \
# founder APPOINT founder manager of club
record 14: refused, 12 orphan: no object may be left without an owner  # founder TAKE founder from club
record 15: done: rule 0 is withdrawn: operators on radios: tune, transmit
"""


class Running(DeskTest):
    """`desk run`."""

    def test_the_sample(self):
        """The sample of document 01 in words: the issue's lines, the count, and the status of something refused."""
        ended = self.desk("run", SAMPLE, status=1)
        self.assertTrue(ended.out.startswith(SAMPLE_ANSWERS), ended.out)
        self.assertEqual(ended.out.splitlines()[-1], "24 records: 17 done, 7 refused")
        self.assertEqual(ended.err, "")

    def test_the_sample_is_that_of_the_board(self):
        """Its bytes are those that the board's own sample has."""
        self.assertEqual(self.desk("bytes", SAMPLE, status=0).raw, (ROOT / "crates/runner/stdin").read_bytes())

    def test_the_club(self):
        """The example: eight members, three groups, two radios, and no answer but those expected."""
        ended = self.desk("run", CLUB, status=1)
        self.assertEqual(ended.err, "")
        self.assertEqual(ended.out.splitlines()[-1], "26 records: 19 done, 7 refused")
        objects = self.documents("show", CLUB)[0]["objects"]
        sorts = [one["sort"] for one in objects]
        self.assertEqual([sorts.count(sort) for sort in ("member", "group", "gear")], [8, 3, 2])

    def test_each_kind(self):
        """All eight kinds, done and told."""
        self.maxDiff = None
        self.assertEqual(self.answers("""\
founder MAKE member ann in club
founder MAKE group hf in club = 7
founder PUT ann into hf
founder TAKE ann from hf
founder APPOINT ann manager of club
founder APPOINT ann owner of hf = 9
ann APPOINT founder administrator of hf over club
founder GRANT hf club all
founder GRANT hf hf settings 6 7 = 5
founder WITHDRAW hf hf
ann DISMISS warrant 2
founder DISMISS ann owner of hf
founder MAKE gear rig in club
founder MAKE member bob in hf
bob USE rig power
"""), [
            "record 0: done: member ann is object 2 in club",
            "record 1: done: group hf is object 7 in club",
            "record 2: done: ann is in hf",
            "record 3: done: ann is no longer directly in hf",
            "record 4: done: ann is manager of club (warrant 1)",
            "record 5: done: ann is owner of hf (warrant 9)",
            "record 6: done: founder is administrator of hf over club (warrant 2)",
            "record 7: done: hf on club: all operations (rule 0)",
            "record 8: done: hf on hf: settings, 6, 7 (rule 5)",
            "record 9: done: rule 5 is withdrawn: hf on hf: settings, 6, 7",
            "record 10: done: founder is dismissed as administrator of hf over club (warrant 2)",
            "record 11: done: ann is dismissed as owner of hf (warrant 9)",
            "record 12: done: gear rig is object 3 in club",
            "record 13: done: member bob is object 4 in hf",
            "record 14: done by rule 0: hf on club  # bob USE rig power",
        ])

    def test_each_refusal_has_its_sentence(self):
        """The twelve refusals of a request, by number, word and sentence."""
        out = self.answers("""\
founder MAKE member ann in club
founder MAKE member bob in club
founder APPOINT ann manager of club
founder MAKE group hf in club
founder APPOINT bob manager of hf
bytes 04 00 63 00
bytes 04 00 01 00
200 USE 1 tune
founder USE 1 99
founder PUT 50 into club
founder USE ann tune
founder PUT ann into club
bob MAKE member 9 in club
founder APPOINT founder manager of club
ann PUT ann into hf
founder TAKE founder from club
bytes 00
""")
        self.assertEqual([line.partition("  # ")[0] for line in out[5:-1]], [
            "record 5: refused, 2 unknown: there is no such kind of request",
            "record 6: refused, 3 misfit: the record has not the length of its kind",
            "record 7: refused, 4 stranger: the sender is no member",
            "record 8: refused, 5 off the sheet: a number of the request is outside its table",
            "record 9: refused, 6 absent: what the request names is not there",
            "record 10: refused, 7 wrong sort: what the request names is of another sort than is needed there",
            "record 11: refused, 8 already so: the place is in use, or the membership is as the request would make it",
            "record 12: refused, 9 no authority: the sender has no authority for this",
            "record 13: refused, 10 own gain: a request may not give its sender what he lacks",
            "record 14: refused, 11 hand-over: a PUT may not make a member own or manage what its sender does not own",
            "record 15: refused, 12 orphan: no object may be left without an owner",
            "record 16: refused, 1 torn: these bytes are no whole record",
        ])

    def test_status(self):
        """0 if all is done, 1 if something is refused; no requests are all done."""
        self.assertEqual(self.desk("run", "-", data=b"", status=0).out, "0 records: 0 done, 0 refused\n")
        out = self.desk("run", "-", data=b"founder MAKE member a in club", status=0).out
        self.assertEqual(out.splitlines()[-1], "1 record: 1 done, 0 refused")
        self.desk("run", "-", data=b"repeat 2 founder MAKE member a in club", status=1)

    def test_json(self):
        """A document for each record, and one for all."""
        documents = self.documents("run", SAMPLE, status=1)
        self.assertEqual(len(documents), 25)
        self.assertEqual(documents[9], {
            "record": 9, "line": 13, "request": "novice USE rig transmit", "code": 0, "word": "done", "cited": 0,
            "text": "done by rule 0: operators on radios", "bytes": "07000800070602", "expected": [0, 0]})
        self.assertEqual(documents[-1], {"records": 24, "done": 17, "refused": 7, "differing": 0, "torn": None})

    def test_places_are_found(self):
        """The lowest free place of each table, and the lowest warrant or rule that fits."""
        documents = self.documents("run", "-", data=b"""\
founder MAKE group a in club = 3
founder MAKE group b in club
founder MAKE group c in club
founder APPOINT founder owner of a = 2
founder APPOINT founder owner of a
founder DISMISS founder owner of a
founder APPOINT founder owner of b
""")
        self.assertEqual([one["bytes"] for one in documents[:3]],
                         ["0800010001030100", "0800010001020100", "0800010001040100"])
        self.assertEqual([bytes.fromhex(one["bytes"])[5] for one in documents[3:7]], [2, 1, 1, 1])

    def test_rules_are_found(self):
        """WITHDRAW takes the lowest rule with the two groups, or that with just the operations given."""
        grants = "GRANT club club tune\nfounder GRANT club club turn\nfounder GRANT club club tune turn"
        text = f"""\
founder MAKE member ann in club
founder APPOINT ann manager of club
ann APPOINT founder administrator of club over club
founder {grants}
founder WITHDRAW club club tune turn
founder WITHDRAW club club turn
founder WITHDRAW club club
"""
        documents = self.documents("run", "-", data=text.encode())
        self.assertEqual([one["bytes"] for one in documents[6:9]], ["060007000102", "060007000101", "060007000100"])
        self.assertEqual({one["code"] for one in documents[:9]}, {0})

    def test_from_a_card(self):
        """A file can be run from a card, under the plain names of its objects."""
        self.desk("save", CLUB, "club.card", status=0)
        out = self.desk("run", "-", "--card", "club.card", data=b"member6 PUT member7 into group2", status=0).out
        self.assertEqual(out.splitlines()[0], "record 0: done: member7 is in group2")


class Expecting(DeskTest):
    """Expected answers."""

    def test_a_difference_is_told(self):
        """Where the answer differs: file, line and column, on standard error, with the status 1."""
        text = "founder MAKE member a in club -> 0 255\nfounder MAKE group b in club -> 9 255\n"
        path = self.file("x.club", text)
        ended = self.desk("run", path, status=1)
        self.assertEqual(ended.err.splitlines(), [
            f"{path}:2:30: came 0 255 (done); expected 9 255 (no authority)", "desk: 1 answer not as expected"])
        self.assertEqual(ended.out.splitlines()[-1], "2 records: 2 done, 0 refused")

    def test_answers_in_words(self):
        """`done`, `done by`, and each refusal by its word."""
        text = "founder MAKE member a in club -> done\na MAKE member b in club -> no authority\nUSE 9 9 9 -> stranger\n"
        self.assertEqual(self.desk("run", "-", data=text.encode(), status=1).err, "")
        self.assertEqual(self.desk("run", SAMPLE).err, "")

    def test_an_answer_that_meets_no_record(self):
        """An answer expected behind a torn place is not met, nor one `too long` to what the board takes."""
        err = self.desk("run", "-", data=b"bytes 01 00\nUSE 1 1 1 -> 7 255\n", status=1).err
        self.assertIn("standard input:2:11: came nothing: no record begins here; expected 7 255 (wrong sort)", err)
        err = self.desk("run", "-", data=b"founder MAKE member a in club -> too long\n", status=1).err
        self.assertIn("came 8 bytes, which the board takes; expected too long", err)


class Streaming(DeskTest):
    """The bytes of a file are one stream, read as the board reads it."""

    def test_a_record_in_pieces(self):
        """A record may stand in several lines."""
        out = self.desk("run", "-", data=b"bytes 08 00 01\nbytes 00 01 02 02 00\n", status=0).out
        self.assertEqual(out.splitlines(), ["record 0: done: member member2 is object 2 in club",
                                            "1 record: 1 done, 0 refused"])

    def test_two_records_in_one_line(self):
        """A line may have several records, and those made in numbers have plain names."""
        text = b"bytes 08 00 01 00 01 02 02 00 08 00 01 00 01 03 01 00\nmember2 USE group3 tune\n"
        out = self.desk("run", "-", data=text).out
        self.assertEqual(len(out.splitlines()), 4)
        self.assertIn("record 2: refused, 7 wrong sort", out)

    def test_torn(self):
        """Behind a torn place nothing is judged, and the desk says so."""
        text = b"founder MAKE member a in club\nbytes 03 00\nfounder MAKE member b in club\nb USE a tune\n"
        ended = self.desk("run", "-", data=text, status=1)
        self.assertEqual(ended.out.splitlines()[1:], [
            "record 1: refused, 1 torn: these bytes are no whole record  # bytes 03 00",
            "the reading ends in line 2: nothing behind a torn place is judged", "2 records: 1 done, 1 refused"])
        self.assertEqual(json.loads(self.desk("run", "-", "--json", data=text).out.splitlines()[-1])["torn"], 2)

    def test_long_lists(self):
        """More than the board takes at once is judged one by one, with a warning."""
        ended = self.desk("run", "-", data=b"repeat 9363 USE 1 1 0\n", status=1)
        self.assertEqual(ended.out.splitlines()[-1], "9363 records: 0 done, 9363 refused")
        self.assertEqual(ended.err, "desk: the records have 65541 bytes, and the board takes 65536 at once: "
                                    "it would answer `too long`\n")


if __name__ == "__main__":
    unittest.main()
