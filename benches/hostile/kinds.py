"""Kinds of hostile certificates: months on which, and texts with which, `pbs check` has much to do."""
import dataclasses

import lenses
import months
import rosters

MOST_SPLITS, MOST_PROOFS = 20_000, 13_000


@dataclasses.dataclass
class Kind:
    """The inputs, the text, how many items of the kind it has, and how many the numbers of a text allow."""

    files: dict
    certificate: str
    items: int
    most: int = MOST_PROOFS * (MOST_SPLITS + 1)


def proof_of_none(items):
    """The text without a roster whose proof has these lines; `lens` lines are no items."""
    count = sum(not line.startswith("lens ") for line in items)
    return "\n".join(["pbs-certificate 1", "none", f"proof {count}", *items, "end", ""])


def one_each(members, pairings):
    """Trips of which each needs one pilot."""
    days = [1 + p % 30 for p in range(pairings)]
    return months.day_trips(days) | {"crew.csv": months.crew(members)}


def path(first, pairs, leaf):
    """Splits of these pairs, the last of them below all others, each closed where it is flown; then the open ends."""
    items = [f"split {m} {p}" for m, p in first]
    for member, pairing in pairs:
        items += [f"split {member} {pairing}", leaf]
    return [*items, leaf]


def counts():
    """Two pilots fly a pairing that needs one; below that, a path of 20,000 decisions, closed by `count` each time."""
    pairs = [(m, p) for p in range(2, 601) for m in range(1, 201)][: MOST_SPLITS - 2]
    text = proof_of_none(path([(1, 1), (2, 1)], pairs, "count 1"))
    return Kind(one_each(200, 600), text, len(pairs) + 1)


def fixeds():
    """15,000 decisions of other pilots; then one pilot flies everything, and below that 100 more, closed by `fixed`."""
    others = [(m, p) for p in range(1, 601) for m in range(2, 201)][:15_100]
    above, below = others[:15_000], others[15_000:]
    items = [f"split {m} {p}" for m, p in [*above, *((1, p) for p in range(1, 601))]]
    items += [line for m, p in below for line in (f"split {m} {p}", "fixed 1")]
    return Kind(one_each(200, 600), proof_of_none([*items, "fixed 1"]), len(below) + 1)


def nolines():
    """One pilot flies two trips of one day; below that a path of 40 decisions, closed by a lens that looks at all."""
    items = path([(1, 1), (1, 31)], [(1, p) for p in range(2, 602) if p != 31][:40], lenses.noline(1, lenses.WINDOWS))
    files = one_each(200, 600)
    files["bids.txt"] = lenses.fly_bids(1)
    return Kind(files, proof_of_none(items), 41)


def weights_kind(members, repeats, lens, build):
    """A split of one pairing over and over on one path, closed by the same weights and lenses each time."""
    month = build(members)
    amounts = " ".join(str(w) for w in month.weights)
    item = "\n".join([f"weights {members} {amounts}", *[f"lens {lens}"] * members])
    leaves = [line for p in range(1, repeats) for line in (f"split 1 {p}", *item.split("\n"))]
    return Kind(month.files, proof_of_none([*leaves, *item.split("\n")]), repeats)


def plain_weights():
    """90 pilots, 600 pairings, standard lenses: the same at ten nodes, of which each decides one pair more."""
    return weights_kind(90, 10, "60 0000000000000000 0 0", lenses.plain)


def fine_weights():
    """The same, by the minute, with credit that must be met by the minute."""
    return weights_kind(1, 1, "1 0000000000000000 0 0", lenses.exact)


def free_weights():
    """One pilot, lenses with free blocks and days, of trips that leave little rest."""
    return weights_kind(1, 1, "1 0000000000000000 1 1", lenses.crowded)


def window_weights():
    """One pilot, long trips, and sixteen windows that bind."""
    return weights_kind(1, 1, "60 0000000000000000 0 0" + lenses.WINDOWS, lenses.crowded)


def all_weights():
    """One pilot, long trips, windows, free blocks, days, and credit by the minute."""
    return weights_kind(1, 1, "1 0000000000000000 1 1" + lenses.WINDOWS, lenses.tight)


def bid_line():
    """A pilot bids for 64 stations that trips touch here and there, and flies a good line. Is there a better one?"""
    return floor_kind("60 ffffffffffffffff 0 0")


def bid_line_all():
    """The same with windows, free blocks, days and credit by the minute."""
    return floor_kind("1 ffffffffffffffff 1 1" + lenses.WINDOWS)


def floor_kind(lens):
    month = lenses.covering()
    others = ["proof 0"] * 39
    lines = ["pbs-certificate 1", "award 40 0", "proof 1", f"noline 1 {lens}", *others, "end", ""]
    return Kind(month.files, "\n".join(lines), 1)


def shown_rosters():
    """200 pilots with a flight on each of 360 days before. Each is denied a bid, and a roster is shown for each."""
    return Kind(*rosters.shown(200, 1, 360))


def most_reasons():
    """The same with 63 denied bids each, and no flights before."""
    return Kind(*rosters.shown(200, 63, 0))


def long_history():
    """The same of a pilot with a flight on each of the 360 days before."""
    kind = nolines()
    kind.files |= rosters.history([1], 360)
    return kind


KINDS = {
    "counts": counts,
    "fixeds": fixeds,
    "nolines": nolines,
    "long-history": long_history,
    "plain-weights": plain_weights,
    "fine-weights": fine_weights,
    "free-weights": free_weights,
    "window-weights": window_weights,
    "all-weights": all_weights,
    "bid-line": bid_line,
    "bid-line-all": bid_line_all,
    "shown-rosters": shown_rosters,
    "most-reasons": most_reasons,
}
