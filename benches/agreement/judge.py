"""The judge of certificates, by the rules of docs/FORMATS.md. Members, pairings and bids count from 0 here.

A lens is (grain, tracked, free30, days, windows, whole), a node a tuple of decisions (member, pairing, flies), and an item one
of ("split", m, p), ("count", p), ("fixed", m), ("noline", m, lens) and ("weights", weights, lenses). A bid is
(member, number), a reason (bid, place) with None as the place of a tie, and a shown part (items, roster), either None.
"""
import collections
import itertools

import law

WIDTHS = {"f672": 40_320, "d672": 40_320, "d168": 10_080}
Goal = collections.namedtuple("Goal", "floors grant", defaults=(None,))
MOST = {"f672": 6_000, "d672": 11_400, "d168": 3_600, "f365": 60_000}


def lines(month):
    numbers = range(len(month.pairings))
    return [line for n in range(len(numbers) + 1) for line in itertools.combinations(numbers, n)]


def is_window(kind, start):
    if kind == "f365":
        return 365 <= start <= 371 + law.DAYS
    return law.MONTH - WIDTHS[kind] < start < law.END


def keeps(month, member, line, kind, start):
    if kind == "f365":
        begin, end = 1440 * (start - 364), 1440 * (start + 1)
    else:
        begin, end = start, start + WIDTHS[kind]
    intervals = law.flying_intervals if kind[0] == "f" else law.period_intervals
    return law.minutes_in(intervals(month, member, line), begin, end) <= MOST[kind]


def lens_fault(member, lens):
    grain, tracked, _, _, windows, whole = lens
    of_line = 0
    for bid in range(64):
        if not tracked >> bid & 1 or bid < len(member.bids) and law.can_be_tracked(member.bids[bid][1]):
            continue
        if not whole or bid >= len(member.bids) or of_line == 6:
            return [1, bid + 1]
        of_line += 1
    if len(windows) > 16:
        return [2, len(windows)]
    for number, (kind, start) in enumerate(windows):
        if not is_window(kind, start):
            return [3, number + 1]
    return None if grain in (60, 30, 15, 5, 1) else [4]


def is_granted_at(month, member, wish, line, credit):
    """Whether the line grants the wish where its total credit is taken as this."""
    word, *values = wish
    if word == "credit below":
        return credit < values[0]
    if word == "credit above":
        return credit > values[0]
    return law.is_granted(month, member, wish, line)


def lens_score(month, member, tracked, line, credit):
    return sum(
        weight
        for bid, (weight, wish) in enumerate(member.bids)
        if not tracked >> bid & 1 or is_granted_at(month, member, wish, line, credit)
    )


def credits(member, down, up):
    """Of the credits that the lens may take, some of each kind that the bids tell apart."""
    least, most = max(member.low, down), min(member.high, up)
    edges = [wish[1] + step for _, wish in member.bids if wish[0].startswith("credit") for step in (-1, 0, 1)]
    return {credit for credit in [least, most, *edges] if least <= credit <= most}


def reaches(month, m, goal, tracked, line, credit):
    """Whether the line reaches the goal by what is tracked, where its total credit is taken as this."""
    member, (floors, grant) = month.members[m], goal
    if m < len(floors) and floors[m] > lens_score(month, member, tracked, line, credit):
        return False
    if grant is None or grant[0] != m or not tracked >> grant[1] & 1:
        return True
    return is_granted_at(month, member, member.bids[grant[1]][1], line, credit)


def grants(month, bid, line):
    """Whether the line of the bid's member grants it."""
    member = month.members[bid[0]]
    return law.is_granted(month, member, member.bids[bid[1]][1], line)


def passes(month, m, goal, node, lens, line):
    member = month.members[m]
    grain, tracked, free30, days, windows, _ = lens
    fixed = sum(e.credit for e in member.fixed)
    down = fixed + sum(month.pairings[p].credit // grain * grain for p in line)
    up = fixed + sum(-(-month.pairings[p].credit // grain) * grain for p in line)
    return (
        all((p in line) == flies for of, p, flies in node if of == m)
        and law.overlap(month, member, line) is None
        and law.short_rest(month, member, line) is None
        and any(reaches(month, m, goal, tracked, line, credit) for credit in credits(member, down, up))
        and not (free30 and law.no_free_block(month, member, line) is not None)
        and not (free30 and law.fourth_night(month, member, line) is not None)
        and not (days and law.days_off(month, member, line) < month.days_off)
        and all(keeps(month, member, line, *window) for window in windows)
    )


def lens_lines(month, m, goal, node, lens):
    return [line for line in lines(month) if passes(month, m, goal, node, lens, line)]


def decided(node, m, p):
    return next((flies for of, pairing, flies in node if (of, pairing) == (m, p)), None)


def split_fault(month, goal, node, m, p):
    if m >= len(month.members) or p >= len(month.pairings):
        return [1]
    return None if decided(node, m, p) is None else [2]


def count_fault(month, goal, node, p):
    if p >= len(month.pairings):
        return [1]
    decisions = [decided(node, m, p) for m in range(len(month.members))]
    need = month.pairings[p].need
    miscrewed = decisions.count(True) > need or len(decisions) - decisions.count(False) < need
    return None if miscrewed else [3]


def fixed_fault(month, goal, node, m):
    if m >= len(month.members):
        return [1]
    decisions = [decided(node, m, p) for p in range(len(month.pairings))]
    if None in decisions:
        return [4, decisions.index(None) + 1]
    line = tuple(p for p, flies in enumerate(decisions) if flies)
    member = month.members[m]
    serves = law.illegality(month, member, line) is None
    serves = serves and (m >= len(goal.floors) or goal.floors[m] <= law.score(month, member, line))
    serves = serves and (goal.grant is None or goal.grant[0] != m or grants(month, goal.grant, line))
    return [5] if serves else None


def noline_fault(month, goal, node, m, lens):
    if m >= len(month.members):
        return [1]
    shape = lens_fault(month.members[m], lens)
    if shape:
        return [6, m + 1] + shape
    return [7, m + 1] if lens_lines(month, m, goal, node, lens) else None


def weights_fault(month, goal, node, weights, lenses):
    if len(weights) != len(month.pairings) or len(lenses) != len(month.members):
        return [10, len(weights), len(lenses)]
    for m, lens in enumerate(lenses):
        shape = lens_fault(month.members[m], lens)
        if shape:
            return [6, m + 1] + shape
    together = 0
    for m, lens in enumerate(lenses):
        found = lens_lines(month, m, goal, node, lens)
        if not found:
            return [8, m + 1]
        together += max(sum(weights[p] for p in line) for line in found)
    needs = sum(pairing.need * weight for pairing, weight in zip(month.pairings, weights))
    return None if together < needs else [9, together, needs]


FAULTS = {
    "split": split_fault,
    "count": count_fault,
    "fixed": fixed_fault,
    "noline": noline_fault,
    "weights": weights_fault,
}


def item_fault(month, goal, node, item):
    return FAULTS[item[0]](month, goal, node, *item[1:])


def proof_fault(month, goal, number, items):
    """What is printed of the proof of this number where it does not close the goal, else None."""
    pending = [()]
    for at, item in enumerate(items):
        if not pending:
            return [5, number]
        node = pending.pop()
        fault = item_fault(month, goal, node, item)
        if fault:
            return [4, number, at + 1] + fault
        if item[0] == "split":
            pending += [node + ((*item[1:], False),), node + ((*item[1:], True),)]
    return [5, number] if pending else None


def roster_fault(month, roster):
    for m, line in enumerate(roster):
        broken = law.illegality(month, month.members[m], line)
        if broken:
            return [1, m + 1, *broken]
    for p, pairing in enumerate(month.pairings):
        crew = sum(p in line for line in roster)
        if crew != pairing.need:
            return [2, p + 1, crew]
    return None


def goal_above(scores, place):
    return Goal(scores[:place] + [scores[place] + 1])


def goal_granting(scores, place, bid):
    return Goal(scores[: place or 0], bid)


def award_fault(month, roster, scores, proofs):
    fault = roster_fault(month, roster)
    if fault is None and len(proofs) != len(month.members):
        fault = [3, len(proofs)]
    for place, items in enumerate(proofs):
        fault = fault or proof_fault(month, goal_above(scores, place), place + 1, items)
    return fault


def bids(month):
    return [(m, b) for m, member in enumerate(month.members) for b in range(len(member.bids))]


def list_fault(month, roster, reasons):
    """The first bid at which the reasons are wrong as a list, as what is printed, or None."""
    for bid in bids(month):
        places = [at for at, (of, _) in enumerate(reasons) if of == bid]
        misplaced = any(reasons[before][0] >= bid for at in places for before in range(at))
        past = any((reasons[at][1] or 0) > len(month.members) for at in places)
        if misplaced or past or bool(places) == grants(month, bid, roster[bid[0]]):
            return [6, bid[0] + 1, bid[1] + 1]
    return None


def serves(month, scores, bid, place, roster):
    """Whether the roster is one to be shown for the bid and the place."""
    if len(roster) != len(month.members) or any(p >= len(month.pairings) for line in roster for p in line):
        return False
    if roster_fault(month, roster) or not grants(month, bid, roster[bid[0]]):
        return False
    found = [law.score(month, member, line) for member, line in zip(month.members, roster)]
    if place is None:
        return found == scores
    return all(ours <= theirs for ours, theirs in zip(scores[: place - 1], found))


def reason_fault(month, scores, number, reason, part):
    (bid, place), (items, roster) = reason, part
    shown = [7, bid[0] + 1, bid[1] + 1]
    if (items is None) != (place is None) or (roster is None) != (place == 0):
        return shown
    fault = items is not None and proof_fault(month, goal_granting(scores, place, bid), number, items)
    if fault:
        return fault
    return None if roster is None or serves(month, scores, bid, place, roster) else shown


def denials_fault(month, roster, scores, reasons, shown):
    fault = [3, len(shown)] if len(shown) != len(reasons) else list_fault(month, roster, reasons)
    for at, (reason, part) in enumerate(zip(reasons, shown)):
        fault = fault or reason_fault(month, scores, len(month.members) + at + 1, reason, part)
    return fault


def rosters(month):
    """All complete rosters with their vectors."""
    legal = [[line for line in lines(month) if not law.illegality(month, m, line)] for m in month.members]
    return [
        ([law.score(month, m, line) for m, line in zip(month.members, roster)], roster)
        for roster in itertools.product(*legal)
        if not roster_fault(month, roster)
    ]


def true_reason(found, month, scores, bid):
    """The place of the bid by all complete rosters, and the greatest of them that grants it, where the scores are greatest."""
    granting = [each for each in found if grants(month, bid, each[1][bid[0]])]
    if not granting:
        return 0, None
    vector, roster = max(granting)
    return next((m + 1 for m, score in enumerate(vector) if score != scores[m]), None), roster
