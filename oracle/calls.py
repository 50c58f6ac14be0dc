"""Call lists as text: reading them, obeying them by the definitions, and the lines that answer them. README.md has the form."""

from definitions import AMOUNTS, LETTERS, LEVEL_CHARGES, Log, Refused, make_charge

# up to how many readings every layering is tried
FEW = 8

# that are handed over or lent
MOST_PLACES = 65_535

# how many words a call has after its name
WORDS = {"put": 1, "layers": 2, "total": 1, "smooth": 2, "kept": 1, "tally": 0}


class Fault(Exception):
    """The text is no call list."""


def number(word, low=0, high=2**64 - 1):
    digits = word[1:] if word[:1] in ("+", "-") else word
    if not (digits.isascii() and digits.isdigit()) or not low <= int(word) <= high:
        raise Fault(f"not a number: {word}")
    return int(word)


def signed(word):
    return number(word, -(2**63), 2**63 - 1)


def open_log(words):
    """The log of an `open` line, and the two lines that answer it."""
    if len(words) < 8:
        raise Fault("open has eight words after it")
    letter, amounts, search = words[:3]
    if letter not in LETTERS or amounts not in AMOUNTS or search not in "PKF" or len(letter + search) != 2:
        raise Fault("no such charge, amounts or search")
    if search == "F" and letter not in LEVEL_CHARGES:
        raise Fault("no level charge")
    if letter != "Q" and len(words) > 8:
        raise Fault("levels are for Q")
    first, second, capacity = (number(word) for word in words[3:6])
    table, filled = (number(word, 0, MOST_PLACES) for word in words[6:8])
    levels = [signed(word) for word in words[8:]]
    charge, capacity, refusal = make_charge(letter, capacity, table, levels)
    kind = AMOUNTS[amounts]
    log = Log(charge, capacity, filled, kind, kind.of_words(first, second), search)
    return log, [told("charge", refusal), told("log", log.refusal)]


def told(what, refusal):
    return f"{what} ok" if refusal is None else f"{what} no {refusal}"


class Checks:
    """What must come out whatever the search: that no layering is better, and that no break is used once it was told dropped."""

    def __init__(self):
        self.dropped = {}

    def check_given(self, log, j):
        places = log.given(j)
        last_break = ([0] + places)[-2]
        assert j <= self.dropped.get(last_break, j), "a dropped break is used"
        if j <= FEW:
            assert (log.total(j), places) == log.best(j), "a layering is better than the one given"

    def note_kept(self, log, s, kept):
        if not kept:
            self.dropped.setdefault(s, len(log.hole))


def answer(log, checks, words):
    """The line that answers one call."""
    name, *rest = words
    if name not in WORDS or len(rest) != WORDS[name]:
        raise Fault("no such call")
    place = None
    if name in ("layers", "smooth"):
        room = number(rest[1], 0, MOST_PLACES)
        place = [7000 + i if name == "layers" else -7000 - i for i in range(room)]
    try:
        line = "ok" + obeyed(log, checks, name, rest, place)
    except Refused as refused:
        line = f"no {refused.number}"
    return line if place is None else " ".join([line, ":"] + [str(x) for x in place])


def obeyed(log, checks, name, rest, place):
    """Obeys the call, and tells its answer."""
    if name == "put":
        log.put(signed(rest[0]))
        return ""
    if name == "layers":
        j = number(rest[0])
        count = log.layers(j, place)
        checks.check_given(log, j)
        return f" {count}"
    if name == "total":
        return " {} {}".format(*log.amounts.words(log.ask_total(number(rest[0]))))
    if name == "smooth":
        return f" {log.smooth(number(rest[0]), place)}"
    if name == "kept":
        s = number(rest[0])
        kept = log.kept(s)
        checks.note_kept(log, s, kept)
        return " kept" if kept else " dropped"
    return " {} {}".format(*log.tally())


def answers(text):
    """The lines that answer a text of call lists."""
    log = checks = None
    at = 0
    for at, line in enumerate(text.splitlines(), 1):
        words = line.split()
        try:
            if words[:1] == ["open"] and log is None:
                log, lines = open_log(words[1:])
                checks = Checks()
                yield from lines
            elif words == ["run"] and log is not None:
                log = None
            elif words and log is not None:
                yield answer(log, checks, words)
            else:
                raise Fault("out of place")
        except Fault as fault:
            raise Fault(f"line {at}: {fault}") from None
    if log is not None:
        raise Fault(f"line {at}: calls without a run")
