"""Large certificates of both versions, for a month of which no judge reads more than the first roster."""
MOST_ITEMS, MOST_USES, MOST_PROOFS, MOST_SHOWN = 40_001, 200, 200, 12_800
PAIRINGS = 600


def mixed(number):
    """A number of 64 bits, of which no two are the same, in no order."""
    number = number * 0x9E3779B97F4A7C15 % 2**64
    return number ^ number >> 29


def lens(number):
    """The words of a lens: those of no two numbers are the same, and they stand in no order."""
    return f"60 {mixed(number):016x} {number & 1} {number >> 1 & 1}"


def rising(number):
    """The same in the order of their words, which differ in the last ones alone."""
    return f"60 {number:016x} 0 0"


def weights(number):
    """Weights from -9,999 to 9,999, of which a tenth is 0."""
    found = [mixed(number * PAIRINGS + i) >> 33 for i in range(PAIRINGS)]
    return [0 if w % 10 == 0 else w // 10 % 19_999 - 9_999 for w in found]


ROWS = [weights(number) for number in range(50)]


def weighed(version, number, uses):
    """The lines of an item of weights, by the words of its lenses or by their numbers."""
    row = ROWS[number % len(ROWS)]
    if version == 1:
        return "".join([f"weights {len(uses)} {' '.join(map(str, row))}\n", *(f"lens {use}\n" for use in uses)])
    pairs = " ".join(f"{i}:{w}" for i, w in enumerate(row, 1) if w)
    return f"weights {len(row)} {pairs}\nby {' '.join(map(str, uses))}\n"


def alike(version, items, members, lenses, first=0):
    """A proof of items of weights, each by as many lenses as there are members, out of so many."""
    lenses = min(lenses, items * members)
    if version == 1:
        head, uses = f"proof {items}\n", [lens(first + i) for i in range(lenses)]
    else:
        head = "".join([f"proof {items} {lenses}\n", *(f"lens {lens(first + i)}\n" for i in range(lenses))])
        uses = range(1, lenses + 1)
    yield head
    at = 0
    for number in range(items):
        yield weighed(version, first + number, [uses[(at + i) % lenses] for i in range(members)])
        at += members


def distinct(version, count, word):
    """A proof of items by 200 lenses, of which all are distinct; the items have no weights."""
    items = -(-count // MOST_USES)
    groups = [range(at, min(at + MOST_USES, count)) for at in range(0, count, MOST_USES)]
    if version == 1:
        yield f"proof {items}\n"
        for group in groups:
            yield "".join([f"weights {len(group)}\n", *(f"lens {word(i)}\n" for i in group)])
        return
    yield f"proof {items} {count}\n"
    for group in groups:
        yield "".join(f"lens {word(i)}\n" for i in group)
    for group in groups:
        yield f"weights 0\nby {' '.join(str(i + 1) for i in group)}\n"


def award(version, proofs, shown, each):
    """An award of so many proofs and shown proofs: `each` makes one of its number."""
    yield f"pbs-certificate {version}\naward {proofs} {shown}\n"
    for number in range(proofs):
        yield from each(number)
    for number in range(shown):
        yield "shown 1 0\n"
        yield from each(proofs + number)
    yield "end\n"


def one_proof(version, items):
    """One huge proof: items of weights for 60 members, out of 200 lenses."""
    return award(version, 1, 0, lambda _: alike(version, items, 60, 200))


def many_proofs(version, members, lenses):
    """As many proofs as a certificate can have, each of an item for so many members, out of so many lenses."""
    return award(version, MOST_PROOFS, MOST_SHOWN, lambda number: alike(version, 1, members, lenses, 1_000 * number))


def lens_lines(version, count, word=lens):
    """One proof of so many distinct lenses."""
    return award(version, 1, 0, lambda _: distinct(version, count, word))


def uses(count):
    """One proof of version 2 that uses a lens of 64 windows over and over, 200 times an item."""
    windows = " ".join(f"f672:{100_000 + i}" for i in range(64))
    item = f"weights 0\nby {' '.join(['1'] * MOST_USES)}\n"
    return ["pbs-certificate 2\naward 1 0\n", f"proof {count} 1\nlens 60 {0:016x} 0 0 {windows}\n", item * count, "end\n"]


def zeros(count):
    """Proofs of version 2 whose items say that 600 weights are 0."""
    item = "weights 600\nby\n"
    full, rest = divmod(count, MOST_ITEMS)
    proofs = [MOST_ITEMS] * full + [rest]
    yield f"pbs-certificate 2\naward {len(proofs)} 0\n"
    for items in proofs:
        yield f"proof {items} 0\n" + item * items
    yield "end\n"


def write(path, parts):
    """The number of bytes written."""
    with open(path, "w") as text:
        for part in parts:
            text.write(part)
        return text.tell()
