#!/usr/bin/env python3
"""Checks docs/MAP.md of the repository it is run in.

    check_map.py              one line an error, exit 1; or `map: N rows, M names, 0 errors`
    check_map.py --self-test  tries the checks on temporary repositories

Every table row is `| id | first words | carried by | would notice |`, the id as 01:keeps.6.
Names in backticks, in the last two columns:
    Tables.sort                  a definition in crates/*/specs/Tables.antt
    proofs/Reaching.under_trans  a law in crates/*/proofs/**/Reaching.antt
    reach::Policy::put           a function (or reach::Policy, a type) in crates/reach/src/*.rt
    must-fail/name               crates/*/must-fail/name.edit
    D7                           an entry `D7.` of docs/DECISIONS.md, as a line or a heading
    docs/a.md, crates/reach/     a path of the repository

Where a row says "`Tables.sort` and `Tables.stored`, in the contracts of `reach::f` and `reach::Policy::g`", each definition before these
words must stand in an ensures clause of each function after them, and the function's file must take the name from the definition's module.
"""
import re
import sys
import tempfile
from pathlib import Path

MAP = "docs/MAP.md"
ID = re.compile(r"(\d\d:[a-z0-9]+)\.([1-9]\d*)")
DEFINITION = re.compile(r"(\w+)\.([^\s./`]+)")
FUNCTION = re.compile(r"([a-z]\w*)::(\w+(?:::\w+)?)")
NAMES = r"`[^`]*`(?:(?:, | and )`[^`]*`)*"
HELD = re.compile(rf"({NAMES}),? in the contracts? of ({NAMES})")


def declared(path):
    """Names that an .antt file declares: `pub f : T`, `a b : T`, `pub record R (x : T) : U where`."""
    names = set()
    for line in path.read_text("utf-8").splitlines():
        line = re.sub(r"(^|\s)--.*", "", line)
        line = re.sub(r"^\s*((abbrev|unfoldable|opaque|pub)\s+)*", "", line)
        kind = re.match(r"(?:record|data)\s+([^\s:]+)", line)
        plain = re.match(r"((?:[^\s(){}=:,;]+\s+)+):(\s|$)", line)
        if kind:
            names.add(kind[1])
        elif plain and not line.startswith(("let ", "use ")):
            names.update(plain[1].split())
    return names


def functions(path):
    """Functions and types of a .rt file, each with its line; a function of `impl T` or `impl A for T` is `T::f`."""
    names, owner = {}, ""
    for number, line in enumerate(path.read_text("utf-8").splitlines(), 1):
        if found := re.match(r"impl(?:<[^>]*>)?\s+(?:[\w:]+(?:<[^>]*>)?\s+for\s+)?(\w+)", line):
            owner = found[1] + "::"
        elif line.startswith("}"):
            owner = ""
        if found := re.match(r'\s*(?:[\w()"]+\s+)*(fn|struct|enum)\s+(\w+)', line):
            names[(owner if found[1] == "fn" else "") + found[2]] = number
    return names


def promises(path, number):
    """What the ensures clauses of the function at a line say: those between its parameters and its body."""
    text = re.sub(r"//.*", "", "\n".join(path.read_text("utf-8").splitlines()[number - 1:]))
    said, opened, clause, start = [], 0, "", 0
    for brace in re.finditer(r"(?:\b(requires|ensures)\b(?:\s+\w+)?\s*)?\{|\}", text):
        if brace[0] == "}":
            opened -= 1
            if not opened and clause == "ensures":
                said.append(text[start:brace.start()])
        else:
            if not opened and not brace[1]:
                break
            if not opened:
                clause, start = brace[1], brace.end()
            opened += 1
    return " ".join(said)


def unkept(root, cell):
    """What is wrong with the words of a cell on contracts: each definition must stand in the contract of each function."""
    faults = []
    if len(HELD.findall(cell)) != len(re.findall("in the contracts? of", cell)):
        faults.append("not of the form `DEFINITION`, in the contract of `FUNCTION`")
    for before, after in HELD.findall(cell):
        definitions, named = re.findall("`([^`]*)`", before), re.findall("`([^`]*)`", after)
        faults += [f"`{name}`: not a definition, so in no contract" for name in definitions if not DEFINITION.fullmatch(name)]
        faults += [f"`{name}`: not a function, so it has no contract" for name in named if not FUNCTION.fullmatch(name)]
        for d in filter(None, map(DEFINITION.fullmatch, definitions)):
            for f in filter(None, map(FUNCTION.fullmatch, named)):
                for path in sorted(root.glob(f"crates/{f[1]}/src/*.rt")):
                    if number := functions(path).get(f[2]):
                        faults += [f"{fault} of `{f[0]}`, {path.relative_to(root)}:{number}" for fault in unsaid(path, number, d)]
    return faults


def unsaid(path, number, definition):
    """What a contract lacks of a definition: its name as a word, and that the file takes this name from the definition's module."""
    module, name = definition[1], re.escape(definition[2])
    if not re.search(rf"(?<![\w.']){name}(?![\w'])", promises(path, number)):
        return [f"expected {definition[2]} in an ensures clause"]
    if not re.search(rf"^ghost use \S+\.{module}\.\{{(.*, )?{name}[,}}]", path.read_text("utf-8"), re.M):
        return [f"expected {definition[2]} to be that of {module} in the contract"]
    return []


def missing(root, name):
    """What is wrong with a name, or None."""
    def among(pattern, read=lambda path: [""], wanted=""):
        files = list(root.glob(pattern))
        fault = f"no {wanted} in {pattern}" if files else f"no file {pattern}"
        return None if any(wanted in read(path) for path in files) else fault

    if m := re.fullmatch(r"proofs/(\w+)\.([^\s./`]+)", name):
        return among(f"crates/*/proofs/**/{m[1]}.antt", declared, m[2])
    if m := re.fullmatch(r"must-fail/([\w-]+)", name):
        return among(f"crates/*/must-fail/{m[1]}.edit")
    if m := FUNCTION.fullmatch(name):
        return among(f"crates/{m[1]}/src/*.rt", functions, m[2])
    if re.fullmatch(r"D\d+", name):
        book = root / "docs/DECISIONS.md"
        text = book.read_text("utf-8") if book.is_file() else ""
        return None if re.search(rf"^(#+ )?{name}\.", text, re.M) else "no such entry in docs/DECISIONS.md"
    if re.fullmatch(r"[^/\s].*/[\w.-]*", name) and ".." not in name.split("/"):
        found = (root / name).is_dir() if name.endswith("/") else (root / name).is_file()
        return None if found else "no such path"
    if m := DEFINITION.fullmatch(name):
        return among(f"crates/*/specs/{m[1]}.antt", declared, m[2])
    return "not a form of name that the map knows"


def check(root):
    """Returns the number of rows, the number of names and the errors."""
    errors, rows, last, names = [], {}, {}, 0
    if not (root / MAP).is_file():
        return 0, 0, [f"{MAP}:1: no such file"]
    for number, line in enumerate((root / MAP).read_text("utf-8").splitlines(), 1):
        cells = [cell.strip() for cell in re.split(r"(?<!\\)\|", line.strip())[1:-1]]
        if not line.strip().startswith("|") or set("".join(cells)) <= set(":-") or cells[0] == "id":
            continue
        if len(cells) != 4 or not (m := ID.fullmatch(cells[0])):
            errors.append(f"{MAP}:{number}: not a row `| id | first words | carried by | would notice |`: {line.strip()}")
            continue
        row, section, count = m[0], m[1], int(m[2])
        if row in rows:
            errors.append(f"{MAP}:{number}: {row}: this id is already at line {rows[row][0]}")
            continue
        if count != last.get(section, 0) + 1:
            errors.append(f"{MAP}:{number}: {row}: the next number of {section} is {last.get(section, 0) + 1}")
        last[section] = count
        cited = [name for cell in cells[2:] for name in re.findall(r"`([^`]*)`", cell)]
        rows[row] = number, bool(cited) or cells[2].startswith(("not yet", "scope"))
        names += len(cited)
        if any(cell.count("`") % 2 for cell in cells[2:]):
            errors.append(f"{MAP}:{number}: {row}: a backtick without its partner")
        errors += [f"{MAP}:{number}: {row}: `{name}`: {fault}" for name in cited if (fault := missing(root, name))]
        errors += [f"{MAP}:{number}: {row}: {fault}" for cell in cells[2:] for fault in unkept(root, cell)]
    if not rows:
        errors.append(f"{MAP}:1: no rows")

    seen = set()
    for path in sorted(root.glob("crates/*/specs/**/*.antt")):
        for number, line in enumerate(path.read_text("utf-8").splitlines(), 1):
            comment = re.search(r"(?:^|\s)--(.*)", line)
            for inner in re.findall(r"\[(\d\d:[^\]]*)\]", comment[1] if comment else ""):
                for one in re.split(r"[,;\s]+", inner):
                    seen.add(one)
                    if one not in rows:
                        errors.append(f"{path.relative_to(root)}:{number}: [{one}] is no id of {MAP}")
    errors += [f"{MAP}:{number}: {row}: in no specs file, names nothing, and is not marked `not yet` or `scope`"
               for row, (number, settled) in rows.items() if not settled and row not in seen]
    return len(rows), names, errors


def self_test():
    files = {
        "crates/reach/specs/Tables.antt": "-- [01:keeps.2]\nabbrev pub sort : T\nstored : T\ndata S : T where\n  group gear : S\n-- gone : T\n",
        "crates/reach/proofs/deep/Reaching.antt": "pub under_trans : {x : T} → U\nunder_trans = go (left : T)\n",
        "crates/reach/src/lib.rt":
            "ghost use Rattle.reach.specs.Tables.{sort, stored, gear};\n"
            "impl Policy {\n    pub fn put(self) -> u8\n        requires { gear }\n        ensures value { result ≡ sort { a } }\n"
            "        ensures rest { p.gear ≡ gears // gear\n            stored }\n    {\n        gear\n    }\n}\n"
            'pub fn top()\n    ensures { sort }\n{\n}\npub extern "C" fn lent() {\n    ensures { gear }\n}\n// fn gone()\n',
        "crates/reach/must-fail/wrong-one.edit": "", "crates/reach/must-fail/wrong-two.edit": "",
        "docs/DECISIONS.md": "D1. One.\n## D2. Two.\nSee D3. Three.\n",
        MAP: "# Map\n| id | first words | carried by | would notice |\n|---|---|---|:--|\n"
             "| 01:keeps.1 | a `b` | `Tables.sort`, `Tables.gear` and `D1` | `must-fail/wrong-one` `must-fail/wrong-two` `D2` |\n"
             "| 01:keeps.2 | b | | |\n| 01:keeps.3 | c | not yet | |\n| 01:who.1 | d | scope | |\n"
             "| 01:who.2 | e | `reach::Policy::put` `reach::top` `reach::lent` | `proofs/Reaching.under_trans` `docs/MAP.md` `docs/` |\n"
             "| 01:who.3 | f | `Tables.sort` and `Tables.stored`, in the contract of `reach::Policy::put`, too | that contract |\n"
             "| 01:who.4 | g | `D1`; `Tables.sort` in the contracts of `reach::top` and `reach::Policy::put`; `D2` | |\n"}
    cases = [  # an edit, and what the first error then says; the first case is the map as it should be
        ("", "", ""), (files[MAP], "", "no rows"), ("# Map", "# Map\n| 1 | 2 |", "MAP.md:2: not a row"),
        ("keeps.3", "keeps.2", "already at line 5"), ("keeps.3", "keeps.4", "next number of 01:keeps is 3"),
        ("who.1 | d |", "who.1 |", "not a row"), ("01:who.1", "01:who", "not a row"), ("`D1`", "`D1", "its partner"),
        ("not yet", "later", "MAP.md:6: 01:keeps.3: in no specs file"), ("`D1`", "`D3`", "`D3`: no such entry"),
        ("`D1`", "`Tables`", "not a form"), ("`D1`", "``", "not a form"), ("`docs/`", "`../`", "not a form"),
        ("Tables.sort", "Tables.gone", "no gone in"), ("Tables.sort", "Table.sort", "no file crates/*/specs/Table.antt"),
        ("must-fail/wrong-one", "must-fail/other", "no file crates/*/must-fail/other.edit"),
        ("Policy::put", "put", "no put in"), ("reach::top", "reach::gone", "no gone in"),
        ("Reaching.under_trans", "Reaching.left", "no left in"), ("docs/MAP.md", "docs/NO.md", "no such path"),
        ("Tables.stored`, in", "Tables.gear`, in",
         "MAP.md:9: 01:who.3: expected gear in an ensures clause of `reach::Policy::put`, crates/reach/src/lib.rt:3"),
        ("Tables.sort` in", "Tables.stored` in", "MAP.md:10: 01:who.4: expected stored in an ensures clause of `reach::top`"),
        ("reach::Policy::put`, too", "reach::lent`, too", "expected sort in an ensures clause of `reach::lent`"),
        ("ensures { sort", "requires { sort", "01:who.4: expected sort in an ensures clause of `reach::top`"),
        ("Tables.{sort, ", "Reach.{sort};\nghost use Tables.{", "01:who.3: expected sort to be that of Tables in the contract"),
        ("`Tables.sort` in", "`proofs/Reaching.under_trans` in", "not a definition"), ("`Tables.sort` in", "in", "not of the form"),
        ("`Tables.sort` in", "`Tables.sort` is in", "not of the form"), ("`reach::top` and", "`D1` and", "`D1`: not a function"),
        ("keeps.2]", "keeps.2, 01:keeps.9]", "Tables.antt:1: [01:keeps.9] is no id"),
        ("[01:keeps.2]", "[01:keeps.1]", "MAP.md:5: 01:keeps.2: in no specs file")]
    for old, new, told in cases:
        with tempfile.TemporaryDirectory() as folder:
            for name, text in files.items():
                (Path(folder) / name).parent.mkdir(parents=True, exist_ok=True)
                (Path(folder) / name).write_text(text.replace(old, new, 1) if old else text, "utf-8")
            rows, names, errors = check(Path(folder))
        right = told in (errors or ["none"])[0] if told else (rows, names, errors) == (7, 20, [])
        assert right and any(old in text for text in files.values()), (old, new, told, rows, names, errors)
    print(f"self-test: 1 good map and {len(cases) - 1} wrong ones, all as expected")


if __name__ == "__main__":
    if sys.argv[1:] == ["--self-test"]:
        sys.exit(self_test())
    if sys.argv[1:]:
        sys.exit("usage: check_map.py [--self-test]")
    rows, names, errors = check(Path("."))
    print("\n".join(errors) if errors else f"map: {rows} rows, {names} names, 0 errors")
    sys.exit(1 if errors else 0)
