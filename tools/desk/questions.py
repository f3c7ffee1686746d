"""Questions about a club: each answer as data for JSON, and as lines."""

from typing import Any, Dict, List

from desk import numbers
from desk.answers import gain_in_words, operations_in_words, rule_in_words, warrant_in_words
from desk.club import Club, Rule, Warrant
from desk.faults import Fault
from desk.grammar import line_in
from desk.resolving import number_of
from desk.running import Judged, run
from desk.tokens import Word, check_name, cut, is_number, number

Data = Dict[str, Any]


def thing(club: Club, which: int) -> Data:
    """An object as data."""
    return {"number": which, "name": club.names.name(which)}


def things(club: Club, found) -> List[Data]:
    """Objects as data."""
    return [thing(club, which) for which in found]


def operations_data(found) -> List[Data]:
    """Operations as data."""
    return [{"number": k, "name": numbers.operation_name(k)} for k in found]


def warrant_data(club: Club, warrant: Warrant) -> Data:
    """A warrant as data; an owner and a manager have no B."""
    data = {"place": warrant.place, "kind": warrant.kind, "word": numbers.WARRANTS[warrant.kind],
            "holder": thing(club, warrant.holder), "A": thing(club, warrant.a)}
    return {**data, "B": thing(club, warrant.b)} if warrant.kind == numbers.ADMINISTRATOR else data


def rule_data(club: Club, rule: Rule) -> Data:
    """A rule as data."""
    return {"place": rule.place, "U": thing(club, rule.users), "T": thing(club, rule.gear),
            "operations": operations_data(numbers.members_of(rule.operations))}


# Who may do what on which gear.

def may_data(club: Club) -> Data:
    """Each member and gear with the operations that he is permitted there."""
    return {"permits": [{"member": thing(club, member), **permit} for member in club.objects(numbers.MEMBER)
                        for permit in uses_data(club, member)]}


def uses_data(club: Club, member: int) -> List[Data]:
    """Each gear on which a member is permitted something, as data."""
    return [{"gear": thing(club, gear), "operations": operations_data(found)} for gear, found in club.permits(member)]


def may_lines(club: Club) -> List[str]:
    """The same in words."""
    lines = [f"{club.called(member)} on {club.called(gear)}: {names_of(operations)}"
             for member in club.objects(numbers.MEMBER) for gear, operations in club.permits(member)]
    return lines or ["nobody may do anything on any gear"]


def names_of(operations) -> str:
    """Some operations by name."""
    return ", ".join(numbers.operation_name(k) for k in operations)


# What one object is, and has.

def object_named(club: Club, text: str) -> int:
    """The object in use that a name or a number stands for; a fault if there is none."""
    words = cut(text)
    if len(words) != 1:
        raise Fault(f"{text!r} is no name; expected one name or number")
    word = Word(words[0].text, 1)
    if is_number(word):
        number(word, 0, numbers.LARGEST_BYTE, "an object")
    else:
        check_name(word, "a name or a number")
    which = number_of(club, word)
    if not club.sort(which):
        raise Fault(f"object {which} is empty; expected one that is in use")
    return which


def pairs_of(club: Club, member: int) -> List[List[List[int]]]:
    """All that a member administers: lists of a with the b that each of them goes with."""
    found: Dict[Any, List[int]] = {}
    for a in club.objects():
        gear = club.set_of("administered", member, a)
        if gear:
            found.setdefault(gear, []).append(a)
    return [[users, list(gear)] for gear, users in found.items()]


def under(club: Club, which: int) -> List[int]:
    """All that an object is under, but for itself."""
    return [group for group in club.set_of("above", which) if group != which]


def below(club: Club, which: int) -> List[int]:
    """All that is under an object, but for itself."""
    return [found for found in club.set_of("below", which) if found != which]


def who_data(club: Club, which: int) -> Data:
    """What an object is and is under; what a member holds; what is under a group or gear."""
    data = {**thing(club, which), "sort": numbers.SORTS[club.sort(which)],
            "in": things(club, club.direct_groups(which)), "under": things(club, under(club, which))}
    if club.sort(which) != numbers.MEMBER:
        return {**data, "under it": things(club, below(club, which))}
    pairs = [{"users": things(club, users), "gear": things(club, gear)} for users, gear in pairs_of(club, which)]
    return {**data, "owns": things(club, club.set_of("owned", which)),
            "manages": things(club, club.set_of("managed", which)),
            "administers": pairs, "uses": uses_data(club, which),
            "warrants": [warrant_data(club, held) for held in club.warrants() if held.holder == which]}


def who_lines(club: Club, which: int) -> List[str]:
    """The same in words."""
    said = club.all_called
    lines = [f"{club.called(which)} is {numbers.sort_in_words(club.sort(which))}, object {which}",
             f"is directly in: {said(club.direct_groups(which))}", f"is under: {said(under(club, which))}"]
    if club.sort(which) != numbers.MEMBER:
        return lines + [f"under it: {said(below(club, which))}"]
    pairs = "; ".join(f"{said(users)} over {said(gear)}" for users, gear in pairs_of(club, which))
    uses = "; ".join(f"{club.called(gear)} ({names_of(found)})" for gear, found in club.permits(which))
    held = "; ".join(f"{w.place} {warrant_in_words(club, w)}" for w in club.warrants() if w.holder == which)
    return lines + [f"owns: {said(club.set_of('owned', which))}", f"manages: {said(club.set_of('managed', which))}",
                    f"administers: {pairs or 'nothing'}", f"may use: {uses or 'nothing'}",
                    f"holds the warrants: {held or 'none'}"]


# The sheet.

def show_data(club: Club) -> Data:
    """The whole sheet."""
    objects = [{**thing(club, which), "sort": numbers.SORTS[club.sort(which)],
                "in": things(club, club.direct_groups(which))} for which in club.objects()]
    return {"objects": objects, "warrants": [warrant_data(club, warrant) for warrant in club.warrants()],
            "rules": [rule_data(club, rule) for rule in club.rules()]}


def show_lines(club: Club) -> List[str]:
    """The same in words."""
    width = max((len(club.called(which)) for which in club.objects()), default=0)
    lines = ["objects"]
    for which in club.objects():
        groups = club.direct_groups(which)
        inside = f"  in {club.all_called(groups)}" if groups else ""
        lines.append(f"  {which:2} {club.called(which):{width}}  {numbers.SORTS[club.sort(which)]:6}{inside}".rstrip())
    lines.append("warrants")
    lines += [f"  {w.place:2} {club.called(w.holder)} is {warrant_in_words(club, w)}" for w in club.warrants()]
    lines.append("rules")
    lines += [f"  {rule.place:2} {rule_in_words(club, rule)}: {operations_in_words(rule.operations)}"
              for rule in club.rules()]
    return lines


# What would be answered.

def what_if(club: Club, source: str, line: int, text: str) -> List[Judged]:
    """The answers to a request, judged on the club and not kept."""
    try:
        item = line_in(line, text)
        if item is None:
            raise Fault("no request stands here; expected one")
    except Fault as fault:
        raise fault.at(source, line) from None
    return list(run(club.copy(), source, [item]))


def judged_data(judged: Judged) -> Data:
    """A request and its answer as data."""
    code = judged.answer.code
    return {"request": judged.item.text, "code": code, "word": numbers.word_of(code), "cited": judged.answer.cited,
            "text": judged.words}


def if_data(club: Club, judged: Judged) -> Data:
    """An answer as data; for own gain what the library tells of it."""
    data = judged_data(judged)
    if judged.answer.code != numbers.OWN_GAIN:
        return data
    gained = club.library.gain(club.picture, judged.record)
    permit = gained and {"gear": thing(club, gained[0]), "operation": operations_data(gained[1:])[0]}
    return {**data, "gain": gain_in_words(club, judged.record), "permit": permit}


def if_line(club: Club, judged: Judged) -> str:
    """The same in words."""
    gain = f"; {gain_in_words(club, judged.record)}" if judged.answer.code == numbers.OWN_GAIN else ""
    return f"{judged.words}{gain}"
