"""The definitions of docs/RULES.md, worked out as they are written and not as the library's searches do it."""

import sys
from functools import lru_cache
from itertools import combinations

# price sums of long segments
sys.setrecursionlimit(20_000)

# refusals
CAPACITY, LEVEL_SET, SHORT_TABLE, USED, HEAVY_PENALTY = 1, 2, 3, 4, 5
FULL, UNLAWFUL, TOO_HEAVY, OUTSIDE, SHORT_PLACE = 6, 7, 8, 9, 10

MOST_READINGS = 1024
HEAVIEST_PENALTY = 1_000_000_000
FURTHEST = 1_000_000


class Refused(Exception):
    """A call says no: `number` tells why."""

    def __init__(self, number):
        super().__init__(number)
        self.number = number


# Amounts. A whole amount is a number, a pair a tuple (cost, layers); Python orders both as the rules do.


class Whole:
    nothing = 0

    @staticmethod
    def plus(a, b):
        return a + b

    @staticmethod
    def weight(a):
        return a

    @staticmethod
    def words(a):
        return (a, 0)

    @staticmethod
    def of_words(first, second):
        return first

    @staticmethod
    def of_fee(fee):
        return fee


class Pair:
    nothing = (0, 0)

    @staticmethod
    def plus(a, b):
        return (a[0] + b[0], a[1] + b[1])

    @staticmethod
    def weight(a):
        return max(a)

    @staticmethod
    def words(a):
        return a

    @staticmethod
    def of_words(first, second):
        return (first, second)

    @staticmethod
    def of_fee(fee):
        """The lift."""
        return (fee, 0)


AMOUNTS = {"W": Whole, "P": Pair}


# Charges: the fee and the level of a list of readings, in whole amounts.


def is_number(x):
    return -FURTHEST <= x <= FURTHEST


def is_symbol(x):
    return 0 <= x <= 31


def places_needed(capacity):
    return capacity


def cells_needed(capacity):
    """`capacity` cells for each power of two not above it."""
    rows = 0
    while 2**rows <= capacity:
        rows += 1
    return rows * capacity


class Median:
    lawful = staticmethod(is_number)
    bound = 2_000_000
    needs = staticmethod(places_needed)

    def level(self, xs):
        return min(x for x in xs if 2 * sum(y <= x for y in xs) >= len(xs))

    def fee(self, xs):
        level = self.level(xs)
        return sum(abs(x - level) for x in xs)


class Range:
    lawful = staticmethod(is_number)
    bound = 2_000_000
    needs = staticmethod(cells_needed)

    def level(self, xs):
        ends = min(xs) + max(xs)
        return ends // 2 if ends >= 0 else -(-ends // 2)

    def fee(self, xs):
        return len(xs) * (max(xs) - min(xs))


class Mode:
    lawful = staticmethod(is_symbol)
    bound = 1
    needs = staticmethod(places_needed)
    levels = range(32)

    def price(self, x, level):
        return 0 if x == level else 1

    def level(self, xs):
        most = max(xs.count(x) for x in xs)
        return min(x for x in xs if xs.count(x) == most)

    def fee(self, xs):
        level = self.level(xs)
        return sum(x != level for x in xs)


class Fixed:
    lawful = staticmethod(is_number)
    bound = 4_000_000_000_000
    needs = staticmethod(places_needed)

    def __init__(self, levels):
        self.levels = levels

    def price(self, x, level):
        return (x - level) ** 2

    def fee(self, xs):
        return min(sum((x - level) ** 2 for x in xs) for level in self.levels)

    def level(self, xs):
        fee = self.fee(xs)
        return min(level for level in self.levels if sum((x - level) ** 2 for x in xs) == fee)


class Soils:
    lawful = staticmethod(is_symbol)
    bound = 31
    needs = staticmethod(cells_needed)

    def level(self, xs):
        return sum(2**k for k in set(xs))

    def fee(self, xs):
        return len(xs) * (len(set(xs)) - 1)


def is_level_set(levels):
    return 1 <= len(levels) <= 32 and list(levels) == sorted(set(levels)) and all(is_number(x) for x in levels)


CHARGES = {"M": Median, "R": Range, "S": Mode, "D": Soils}
LETTERS = "MRSQD"
LEVEL_CHARGES = "SQ"


def make_charge(letter, capacity, table, levels):
    """The charge, its capacity, and the number of the refusal of its making, or None."""
    charge = Fixed(levels) if letter == "Q" else CHARGES[letter]()
    if not 1 <= capacity <= MOST_READINGS:
        refusal = CAPACITY
    elif letter == "Q" and not is_level_set(levels):
        refusal = LEVEL_SET
    elif table < charge.needs(capacity):
        refusal = SHORT_TABLE
    else:
        return charge, capacity, None
    return (Fixed([0]) if letter == "Q" else charge), 0, refusal


class Log:
    """A log of a search (P plain, K pruned, F by levels), by the definitions. Totals and the like of the first t readings do not
    change as readings are put, so each is kept once it is worked out."""

    def __init__(self, charge, capacity, filled, amounts, penalty, search):
        self.charge, self.amounts, self.penalty, self.search = charge, amounts, penalty, search
        self.hole = []
        self.refusal = None
        if min(filled, capacity) > 0:
            self.refusal = USED
        elif amounts.weight(penalty) > HEAVIEST_PENALTY:
            self.refusal = HEAVY_PENALTY
        self.capacity = capacity if self.refusal is None else 0
        for name in ("fee", "total", "back", "dropped", "price_sum", "held", "holding", "pairs_tried"):
            setattr(self, name, lru_cache(maxsize=None)(getattr(self, name)))

    # -- the definitions

    def fee(self, s, t):
        return self.amounts.of_fee(self.charge.fee(self.hole[s:t]))

    def through(self, s, t):
        plus = self.amounts.plus
        return plus(plus(self.total(s), self.fee(s, t)), self.penalty)

    def total(self, t):
        if t == 0:
            return self.amounts.nothing
        return min(self.through(s, t) for s in range(t))

    def back(self, t):
        return max(s for s in range(t) if self.through(s, t) == self.total(t))

    def given(self, j):
        places = []
        while j > 0:
            places.append(j)
            j = self.back(j)
        return places[::-1]

    def dropped(self, n, s):
        """By the pruned search."""
        return any(self.amounts.plus(self.total(s), self.fee(s, u)) >= self.total(u) for u in range(s + 1, n + 1))

    def price_sum(self, level, s, t):
        if s == t:
            return self.amounts.nothing
        price = self.amounts.of_fee(self.charge.price(self.hole[t - 1], level))
        return self.amounts.plus(self.price_sum(level, s, t - 1), price)

    def held(self, level, n):
        worths = [self.amounts.plus(self.total(s), self.price_sum(level, s, n)) for s in range(n)]
        return max(s for s in range(n) if worths[s] == min(worths))

    def holding(self, n):
        """What some level holds after n readings."""
        return {self.held(level, n) for level in self.charge.levels} if n > 0 else set()

    def is_kept(self, n, s):
        if self.search == "P":
            return True
        if self.search == "K":
            return not self.dropped(n, s)
        return s == n or s in self.holding(n)

    def pairs_tried(self, t):
        """How many s < t are kept after t - 1 readings."""
        return sum(self.is_kept(t - 1, s) for s in range(t))

    def fees_worked_out(self, n):
        if self.search == "P":
            return n * (n + 1) // 2
        if self.search == "K":
            return sum(self.pairs_tried(t) for t in range(1, n + 1))
        return n * len(self.charge.levels)

    def smoothed(self, j):
        levels, start = [], 0
        for end in self.given(j):
            levels += [self.charge.level(self.hole[start:end])] * (end - start)
            start = end
        return levels

    # -- the calls

    def put(self, x):
        n = len(self.hole)
        if n >= self.capacity:
            raise Refused(FULL)
        if not self.charge.lawful(x):
            raise Refused(UNLAWFUL)
        if (n + 1) * (self.charge.bound + self.amounts.weight(self.penalty)) > 2**62:
            raise Refused(TOO_HEAVY)
        self.hole.append(x)

    def within(self, j):
        if not 1 <= j <= len(self.hole):
            raise Refused(OUTSIDE)

    def layers(self, j, place):
        """Writes the places of the layering into `place`, and answers how many they are."""
        self.within(j)
        return written(self.given(j), place)

    def ask_total(self, j):
        self.within(j)
        return self.total(j)

    def smooth(self, j, place):
        self.within(j)
        return written(self.smoothed(j), place)

    def kept(self, s):
        if s > len(self.hole):
            raise Refused(OUTSIDE)
        return self.is_kept(len(self.hole), s)

    def tally(self):
        n = len(self.hole)
        return self.fees_worked_out(n), sum(not self.is_kept(n, s) for s in range(n + 1))

    # -- the same once more, without the recursion

    def cost(self, places):
        cost, start = self.amounts.nothing, 0
        for end in places:
            cost = self.amounts.plus(cost, self.amounts.plus(self.fee(start, end), self.penalty))
            start = end
        return cost

    def best(self, j):
        """Of all layerings of the first j readings the cheapest; of these, counted from the last, the one of the deepest breaks."""
        all_of_them = [
            list(breaks) + [j] for few in range(j) for breaks in combinations(range(1, j), few)
        ]
        least = min(self.cost(places) for places in all_of_them)
        cheapest = [places for places in all_of_them if self.cost(places) == least]
        return least, max(cheapest, key=lambda places: places[::-1] + [0])


def written(values, place):
    if len(place) < len(values):
        raise Refused(SHORT_PLACE)
    place[: len(values)] = values
    return len(values)
