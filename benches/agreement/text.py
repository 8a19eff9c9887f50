"""Which texts are certificates, and where the others stop being one, by the rules of docs/FORMATS.md."""
import re

VERSION, WORD, NUMBER, SHORT, TRAILING, LIMIT = range(1, 7)
MOST_WEIGHT, MOST_MINUTES = 2_147_483_647, 4_294_967_295
USES_OF_AN_ITEM = 200


class Fault(Exception):
    """A code; the line is the one that was read last."""


class Words:
    """The words of a line behind its first. Each is read by its form, and limits are looked at when all are read."""

    def __init__(self, words):
        self.words, self.beyond = words, False

    def take(self, form):
        if not self.words or not re.fullmatch(form, self.words[0]):
            raise Fault(NUMBER)
        return self.words.pop(0)

    def limit(self, number, most):
        self.beyond = self.beyond or number > most
        return number

    def number(self, most, form="0|[1-9][0-9]*"):
        return self.limit(int(self.take(form)), most)

    def place(self):
        return self.number(9_999, "[1-9][0-9]*")

    def weight(self):
        return self.limit(abs(int(self.take("0|-?[1-9][0-9]*"))), MOST_WEIGHT)

    def window(self):
        self.limit(int(self.take("(f672|d672|d168|f365):(0|[1-9][0-9]*)").split(":")[1]), MOST_MINUTES)

    def lens(self):
        self.number(MOST_MINUTES)
        self.take("[0-9a-f]{16}")
        self.take("[01]")
        self.take("[01]")
        self.limit(self.all(self.window), 64)

    def pair(self, most, last):
        """The place of a pair, which is behind the last one; its weight is not 0."""
        place, weight = self.take("[1-9][0-9]*:-?[1-9][0-9]*").split(":")
        self.limit(abs(int(weight)), MOST_WEIGHT)
        self.must(last < int(place) <= most)
        return int(place)

    def sparse(self):
        most, last = self.number(600), 0
        while self.words:
            last = self.pair(most, last)

    def must(self, holds):
        if not holds:
            raise Fault(NUMBER)

    def row(self):
        places = []
        self.limit(self.all(lambda: places.append(self.place())), 600)
        if any(later <= earlier for earlier, later in zip(places, places[1:])):
            raise Fault(NUMBER)

    def all(self, one):
        count = 0
        while self.words:
            one()
            count += 1
        return count

    def end(self):
        if self.words:
            raise Fault(NUMBER)
        if self.beyond:
            raise Fault(LIMIT)


class Lenses:
    """The lenses of a proof of version 2 or 3: those that stand in front, and the greatest number that was named."""

    def __init__(self, total):
        self.total, self.named, self.lines = total, 0, set()

    def add(self, first, words):
        """A line, which is new. Its first word says whether the lens looks at whole lines."""
        line = (first, *words.words)
        words.lens()
        words.must(line not in self.lines)
        words.end()
        self.lines.add(line)

    def name(self, words):
        number = int(words.take("[1-9][0-9]*"))
        words.must(number <= self.total and number <= self.named + 1)
        self.named = max(self.named, number)

    def end(self, words, left):
        """The end of an item's last line, behind which so many items are to come."""
        words.must(not words.words and self.total <= self.named + USES_OF_AN_ITEM * left)
        words.end()


class Reader:
    def __init__(self, text):
        self.rest, self.line, self.version = text, 0, None
        # Whether a lens that looks at whole lines is still owed, and how many parts are to come that may have it.
        self.owed, self.ahead = False, 0

    def next(self, *firsts):
        """The next line's first word, which is one of these, and the words behind it."""
        self.line += 1
        line, feed, self.rest = self.rest.partition(b"\n")
        if not feed:
            raise Fault(SHORT)
        first, *others = line.decode("latin-1").split(" ")
        if firsts and first not in firsts:
            raise Fault(WORD)
        return first, Words(others)

    def heading(self):
        first, words = self.next()
        if [first, *words.words] not in (["pbs-certificate", number] for number in "123"):
            raise Fault(VERSION)
        self.version = int(words.words[0])
        self.owed = self.version == 3

    def must(self):
        """Whether what is read now must have the lens that is owed."""
        return self.owed and self.ahead == 0

    def bare(self, words):
        if words.words:
            raise Fault(WORD)

    def item(self):
        first, words = self.next("split", "count", "fixed", "noline", "weights")
        lenses = words.number(200) if first == "weights" else 0
        if first == "weights":
            words.limit(words.all(words.weight), 600)
        else:
            words.place()
        if first == "split":
            words.place()
        if first == "noline":
            words.lens()
        words.end()
        for _ in range(lenses):
            self.of_lens()

    def of_lens(self):
        _, words = self.next("lens")
        words.lens()
        words.end()

    def numbered_item(self, lenses, left):
        first, words = self.next("split", "count", "fixed", "noline", "weights")
        if first == "weights":
            words.sparse()
            words.end()
            _, words = self.next("by")
            words.limit(words.all(lambda: lenses.name(words)), 200)
        else:
            words.place()
        if first == "split":
            words.place()
        if first == "noline":
            lenses.name(words)
        lenses.end(words, left)

    def numbered_proof(self):
        _, words = self.next("proof")
        count, lenses = words.number(40_001), Lenses(words.number(8_000_200))
        words.must(lenses.total > 0 or not self.must())
        lenses.end(words, count)
        for left in reversed(range(lenses.total)):
            first, words = self.next(*self.firsts(left))
            lenses.add(first, words)
            self.owed = self.owed and first == "lens"
        for number in range(count):
            self.numbered_item(lenses, count - 1 - number)

    def firsts(self, left):
        """With which words the line of a lens may begin, behind which the proof has so many more."""
        if self.version == 2:
            return ["lens"]
        return ["whole"] if self.must() and left == 0 else ["lens", "whole"]

    def proof(self):
        if self.version != 1:
            return self.numbered_proof()
        _, words = self.next("proof")
        count = words.number(40_001)
        words.end()
        for _ in range(count):
            self.item()

    def shown(self):
        _, words = self.next("shown")
        proofs, rows = int(words.take("[01]")), words.number(200)
        words.must(proofs == 1 or not self.must())
        words.end()
        for _ in range(proofs):
            self.proof()
        for _ in range(rows):
            _, words = self.next("line")
            words.row()
            words.end()

    def award(self, words):
        places, denials = words.number(200), words.number(12_800)
        self.ahead = places + denials
        words.must(not self.must())
        words.end()
        for one in [self.proof] * places + [self.shown] * denials:
            self.ahead -= 1
            one()

    def whole(self):
        self.heading()
        first, words = self.next("award", "none")
        if first == "award":
            self.award(words)
        else:
            self.bare(words)
            self.proof()
        _, words = self.next("end")
        self.bare(words)
        if self.rest:
            self.line += 1
            raise Fault(TRAILING)


def read(text):
    """The line and code of the fault, or None."""
    reader = Reader(text)
    try:
        reader.whole()
    except Fault as fault:
        return reader.line, fault.args[0]
    return None
