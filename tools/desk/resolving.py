"""From a request in words to its record: names become numbers, and places that are not given are found on the sheet."""

from typing import Callable, Dict, Optional, Union

from desk import numbers
from desk.club import Club
from desk.faults import Fault
from desk.grammar import Exact
from desk.sentences import Post, Spoken
from desk.tokens import Word, is_number


def number_of(club: Club, word: Word) -> int:
    """The number that a name or a plain number stands for."""
    return int(word.text) if is_number(word) else club.names.number(word)


def place_of(given: Optional[Word], lowest: Optional[int], column: int, full: str) -> int:
    """The place that is given, or else the lowest free one; a fault if there is none."""
    if given:
        return int(given.text)
    if lowest is None:
        raise Fault(f"{full}; expected a free place, or one behind `=`", column)
    return lowest


def make(club: Club, asked: Spoken) -> bytes:
    """The record of a MAKE."""
    if is_number(asked.name):
        place = int(asked.name.text)
    else:
        club.names.check_free(asked.name)
        place = place_of(asked.place, club.free_object(), asked.column, f"all {numbers.OBJECTS} objects are in use")
    return numbers.record("MAKE", number_of(club, asked.sender), place, asked.sort, number_of(club, asked.group))


def move(club: Club, asked: Spoken) -> bytes:
    """The record of a PUT or a TAKE."""
    return numbers.record(asked.kind, *(number_of(club, word) for word in (asked.sender, asked.object, asked.group)))


def post_fields(club: Club, post: Post):
    """Kind, holder, A and B of a post; B is 0 where it is unread."""
    return post.kind, number_of(club, post.holder), number_of(club, post.a), number_of(club, post.b) if post.b else 0


def appoint(club: Club, asked: Spoken) -> bytes:
    """The record of an APPOINT."""
    sender, fields = number_of(club, asked.sender), post_fields(club, asked.post)
    full = f"all {numbers.WARRANT_PLACES} warrants are in use"
    place = place_of(asked.place, club.free_warrant(), asked.column, full)
    return numbers.record("APPOINT", sender, place, *fields)


def standing_warrant(club: Club, post: Post, column: int) -> int:
    """The lowest place of a warrant with these fields; a fault if there is none."""
    kind, holder, a, b = post_fields(club, post)
    for found in club.warrants():
        if (found.kind, found.holder, found.a) == (kind, holder, a) and (found.b == b or kind != numbers.ADMINISTRATOR):
            return found.place
    over = f" over {post.b.text}" if post.b else ""
    raise Fault(f"no warrant stands by which {post.holder.text} is {numbers.WARRANTS[kind]} of {post.a.text}{over}; "
                "expected one that does, or `warrant` and its place", column)


def dismiss(club: Club, asked: Spoken) -> bytes:
    """The record of a DISMISS."""
    sender = number_of(club, asked.sender)
    place = int(asked.place.text) if asked.place else standing_warrant(club, asked.post, asked.column)
    return numbers.record("DISMISS", sender, place)


def grant(club: Club, asked: Spoken) -> bytes:
    """The record of a GRANT."""
    sender, users, gear = (number_of(club, word) for word in (asked.sender, asked.users, asked.gear))
    place = place_of(asked.place, club.free_rule(), asked.column, f"all {numbers.RULE_PLACES} rules are in use")
    return numbers.record("GRANT", sender, place, users, gear, asked.operations)


def standing_rule(club: Club, asked: Spoken) -> int:
    """The lowest place of a rule with these groups, and with just these operations if some are given; else a fault."""
    users, gear = number_of(club, asked.users), number_of(club, asked.gear)
    for rule in club.rules():
        if (rule.users, rule.gear) == (users, gear) and asked.operations in (0, rule.operations):
            return rule.place
    just = " with just these operations" if asked.operations else ""
    raise Fault(f"no rule is in use for {asked.users.text} on {asked.gear.text}{just}; "
                "expected one that is, or `rule` and its place", asked.column)


def withdraw(club: Club, asked: Spoken) -> bytes:
    """The record of a WITHDRAW."""
    sender = number_of(club, asked.sender)
    return numbers.record("WITHDRAW", sender, int(asked.place.text) if asked.place else standing_rule(club, asked))


def use(club: Club, asked: Spoken) -> bytes:
    """The record of a USE."""
    return numbers.record("USE", number_of(club, asked.sender), number_of(club, asked.object), asked.operation)


RESOLVERS: Dict[str, Callable[[Club, Spoken], bytes]] = {
    "MAKE": make, "PUT": move, "TAKE": move, "APPOINT": appoint,
    "DISMISS": dismiss, "GRANT": grant, "WITHDRAW": withdraw, "USE": use,
}


def record_of(club: Club, request: Union[Exact, Spoken]) -> bytes:
    """The bytes of a request on a club as it is now."""
    return request.data if isinstance(request, Exact) else RESOLVERS[request.kind](club, request)


def new_name(request: Union[Exact, Spoken]) -> Optional[str]:
    """The name that a request gives if it is done; None for no name."""
    if isinstance(request, Spoken) and request.name and not is_number(request.name):
        return request.name.text
    return None
