"""The tables of the desk beside the header of the library."""

import re
import unittest

from desk import library, numbers
from desk.tests.support import ROOT

DEFINED = re.compile(r"^#define SELKAUM_(\w+) (\d+|0x[0-9A-Fa-f]+)\b", re.MULTILINE)


def in_header():
    """The constants of the header, without what their names begin with."""
    return {name: int(value, 0) for name, value in DEFINED.findall((ROOT / "include/selkaum.h").read_text())}


def in_tables():
    """The same constants as the desk has them."""
    found = {"POLICY_BYTES": numbers.PICTURE_BYTES, "MEMBERSHIPS": numbers.ROWS_AT, "ROW_BYTES": numbers.ROW_BYTES,
             "WARRANTS": numbers.WARRANTS_AT, "WARRANT_BYTES": numbers.WARRANT_BYTES, "RULES": numbers.RULES_AT,
             "RULE_BYTES": numbers.RULE_BYTES, "IN_USE": numbers.RULE_IN_USE, "NONE": numbers.NOTHING_CITED,
             "OBJECT_COUNT": numbers.OBJECTS, "WARRANT_COUNT": numbers.WARRANT_PLACES,
             "RULE_COUNT": numbers.RULE_PLACES, "OPERATION_COUNT": numbers.OPERATION_COUNT, "DONE": numbers.DONE,
             "ANSWER_BYTES": library.ANSWER_BYTES, "CODE": library.CODE, "CITED": library.CITED,
             "SET_BYTES": library.SET_BYTES, "GAIN_BYTES": library.GAIN_BYTES, "LARGEST_CARD": library.LARGEST_CARD,
             "CARD_ANSWER_BYTES": library.CARD_ANSWER_BYTES}
    for code in range(1, numbers.DAMAGED + 1):
        found[re.sub(r"\W", "_", numbers.word_of(code)).upper()] = code
    for number, (kind, fields) in enumerate(numbers.FIELDS.items(), 1):
        found[kind] = number
        found[f"{kind}_BYTES"] = numbers.HEAD + len(fields)
        found.update({f"{kind}_{field.upper()}": numbers.HEAD + at for at, field in enumerate(fields) if at})
    for table in (numbers.SORTS, numbers.WARRANTS, numbers.OPERATIONS):
        found.update({word.upper(): number for number, word in enumerate(table)})
    return found


class Tables(unittest.TestCase):
    """Every constant that both have is the same in both."""

    def test_same(self):
        """What is named in the header is as the desk has it; most of it is named there."""
        header, tables = in_header(), in_tables()
        shared = set(header) & set(tables)
        self.assertTrue({"POLICY_BYTES", "CODE", "CITED", "LARGEST_CARD"} <= shared)
        self.assertEqual({name: tables[name] for name in shared}, {name: header[name] for name in shared})
        if "MAKE" not in header:
            self.skipTest("this header names no kinds, sorts and codes")
        self.assertEqual(set(tables) - shared, set())


if __name__ == "__main__":
    unittest.main()
