"""The tables of docs/MAPS.md, as they follow from the tables of python/chtab_maps/tables. Run as a program it prints them.

Each is a Markdown table, as text without its last end of line.
"""
import itertools
import pathlib
import sys

PYTHON_PATH = pathlib.Path(__file__).resolve().parent.parent.parent / "python"
if str(PYTHON_PATH) not in sys.path:
    sys.path.insert(0, str(PYTHON_PATH))

from chtab_maps import profiles  # noqa: E402

ALL = [profiles.profile(name) for name in profiles.NAMES]
WIKI = "https://wiki.openstreetmap.org/wiki/"
NONE = "-"


def link(told, page):
    return f"[{told}]({WIKI}{page})"


def table(head, rows):
    lines = [head, ["---"] * len(head), *rows]
    return "\n".join(f"| {' | '.join(line)} |" for line in lines)


def coded(words):
    return ", ".join(f"`{word}`" for word in words) or NONE


def pairs(of):
    """Tags with their words, those with the same words together."""
    found = {}
    for key, words in of.items():
        found.setdefault(tuple(sorted(words)), []).append(key)
    return "; ".join(f"{coded(keys)} with {coded(words)}" for words, keys in found.items()) or NONE


def kinds():
    """Kilometres an hour of each kind of way; in brackets where it is closed unless a tag opens it."""
    def speed(profile, kind):
        if kind in profile.speeds:
            return str(profile.speeds[kind])
        return f"({profile.speeds_where_opened[kind]})" if kind in profile.speeds_where_opened else NONE

    found = dict.fromkeys(kind for profile in ALL for kind in [*profile.speeds, *profile.speeds_where_opened])
    rows = {}
    for kind in found:
        rows.setdefault(tuple(speed(profile, kind) for profile in ALL), []).append(kind)
    return table(["`highway`", *profiles.NAMES], [[coded(group), *speeds] for speeds, group in rows.items()])


def questions():
    """What else is asked of a way, for each way of travelling; each row has the page of its tags."""
    asked = [
        (link("access", "Key:access"), lambda each: coded(each.access.tags)),
        (link("direction", "Key:oneway"), lambda each: coded(each.oneway.tags)),
        (f"{link('one-way', 'Key:junction')} without such a tag", lambda each: pairs(each.oneway.implied)),
        (f"{link('against it', 'Key:cycleway')} too", lambda each: pairs(each.oneway.opened_by)),
        (link("limit of speed", "Key:maxspeed"), lambda each: each.limit),
        (f"{link('ferry', 'Tag:route%3Dferry')} without a duration", lambda each: f"{each.ferry_speed} km/h"),
        (f"{link('ferry', 'Tag:route%3Dferry')} for others", lambda each: coded(each.ferries_for_others)),
        (link("turns", "Relation:restriction"), lambda each: coded(each.turn_tags)),
        (f"{link('turns', 'Relation:restriction')}, but not with `except`", lambda each: coded(sorted(each.turn_exceptions))),
    ]
    return table(["", *profiles.NAMES], [[told, *map(answer, ALL)] for told, answer in asked])


def closing():
    """Tags that close a way, whatever its access tags say."""
    tags = {(key, word): None for profile in ALL for key, words in profile.closed_by.items() for word in sorted(words)}
    rows = []
    for key, word in tags:
        said = ["closed" if word in profile.closed_by.get(key, ()) else "open" for profile in ALL]
        rows.append([link(f"`{key}={word}`", f"Tag:{key}%3D{word}" if key == "service" else f"Key:{key}"), *said])
    return table(["tag", *profiles.NAMES], rows)


def words_of_limits():
    """Kilometres an hour of the words and units of limits, zones aside."""
    limits = profiles.read("limits")
    rows = [[f"`{word}`", f"{speed} km/h" if speed else "the speed of the kind"] for word, speed in limits["words"].items()]
    return table(["word", "stands for"], rows + [[f"`30 {unit}`", f"{30 * each:g} km/h"] for unit, each in limits["units"].items()])


def grouped(words, answer):
    """Rows of equal answers, with the words that have them."""
    found = {}
    for word in sorted(words):
        found.setdefault(tuple(answer(profile, word) for profile in ALL), []).append(word)
    order = "open", "open at a barrier", "passed over, open", "passed over", "passed over, closed", "closed"
    return [[*answers, coded(found[answers])] for answers in itertools.product(order, repeat=len(ALL)) if answers in found]


def access_words():
    """What each word of an access tag says."""
    def answer(profile, word):
        if word in profile.access.open:
            return "open"
        if word in profile.barriers.access.open:
            return "open at a barrier"
        return "closed" if word in profile.access.closed else "passed over"

    words = {word for profile in ALL for word in profile.access.open | profile.access.closed}
    return table([*profiles.NAMES, "words"], grouped(words, answer))


def barriers():
    """Which kinds of barrier are open."""
    def answer(profile, kind):
        is_open = kind in profile.barriers.open or (kind not in profile.barriers.closed and profile.barriers.others_open)
        return "open" if is_open else "closed"

    kinds = {kind for profile in ALL for kind in profile.barriers.open | profile.barriers.closed}
    others = [["closed", "open"][profile.barriers.others_open] for profile in ALL]
    return table([*profiles.NAMES, "`barrier`"], [*grouped(kinds, answer), [*others, "all others, which are reported"]])


def everything():
    return [kinds(), closing(), questions(), access_words(), words_of_limits(), barriers()]


if __name__ == "__main__":
    print(*everything(), sep="\n\n")
