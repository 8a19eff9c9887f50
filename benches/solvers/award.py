#!/usr/bin/env python3
"""Awards a month by a solver: `award.py FOLDER highs|highs-plain|cbc`; `highs-plain` is HiGHS without its presolve.

Place by place: the greatest score of the member, with the scores before it as floors. Then for each denied bid of
`reasons.txt` the least place whose floors, with those before it, no roster reaches that grants the bid, by halves; or a tie.
Rosters that were found on the way answer where they can, and a wish that a member has twice is asked once. A line that the
law forbids adds a row, and the solver is called again. Prints the vector (as far as the solver finds rosters), the causes, what
it took, and how many rows of its model the roster of `pbs` misses, which should be none.
"""
import json
import pathlib
import sys

import reading
import solving
from model import Model
from reading import law

SOLVERS = {"highs": solving.Highs, "highs-plain": lambda: solving.Highs(presolve=False), "cbc": solving.Cbc}


class Award:
    def __init__(self, month, solver):
        self.month, self.solver, self.model = month, solver, Model(month)
        self.known = []

    def lines(self, columns):
        flown = [[] for _ in self.month.members]
        for (m, p), column in self.model.flies.items():
            if columns[column]:
                flown[m].append(p)
        return [tuple(line) for line in flown]

    def roster(self, floors, grant=None, aim=()):
        """A complete roster that reaches the floors, grants the bid and has the greatest aim, or None."""
        asked = [(dict_of(self.model.score(m)), floor, None) for m, floor in enumerate(floors)]
        if grant is not None:
            asked.append(({self.model.grants[grant]: 1}, 1, None))
        while True:
            columns = self.solver.solve(self.model.most, self.model.rows + asked, aim)
            if columns is None:
                return None
            roster = self.lines(columns)
            broken = [m for m, line in enumerate(roster) if law.illegality(self.month, self.month.members[m], line)]
            if not broken:
                self.test(roster, floors, grant)
                self.known.append(roster)
                return roster
            for m in broken:
                self.model.forbid(m, roster[m])

    def test(self, roster, floors, grant):
        """Whether the roster is what was asked for, counted anew."""
        for p, pairing in enumerate(self.month.pairings):
            assert sum(p in line for line in roster) == pairing.need, f"crew of {pairing.name}"
        assert self.reaches(roster, floors), "floors"
        assert grant is None or self.grants(roster, grant), "grant"

    def reaches(self, roster, floors):
        members = self.month.members
        return all(law.score(self.month, members[m], roster[m]) >= floor for m, floor in enumerate(floors))

    def grants(self, roster, bid):
        member = self.month.members[bid[0]]
        return law.is_granted(self.month, member, member.bids[bid[1]][1], roster[bid[0]])

    def vector(self):
        """The scores, as far as the solver finds a roster that reaches those before."""
        scores = []
        for m, member in enumerate(self.month.members):
            best = self.roster(scores, aim=self.model.score(m))
            if best is None:
                break
            scores.append(law.score(self.month, member, best[m]))
        return scores

    def is_had(self, scores, bid, place):
        """Whether some roster grants the bid and reaches the scores up to the place."""
        floors = scores[:place]
        if any(self.grants(known, bid) and self.reaches(known, floors) for known in self.known):
            return True
        return self.roster(floors, grant=bid) is not None

    def cause(self, scores, bid):
        """The least place whose floors can't be reached with the bid granted, or None for a tie."""
        low, high = 0, len(scores) + 1
        while low < high:
            half = (low + high) // 2
            if self.is_had(scores, bid, half):
                low = half + 1
            else:
                high = half
        return low if low <= len(scores) else None


def dict_of(terms):
    return {column: value for value, column in terms}


def causes_of(award, scores, denied):
    """The causes of these bids, under the member's place and the bid's number."""
    causes, asked = {}, {}
    for m, number in denied:
        wish = (m, repr(award.month.members[m].bids[number][1]))
        if wish not in asked:
            asked[wish] = award.cause(scores, (m, number))
        causes[f"{m + 1} {number + 1}"] = asked[wish]
    return causes


def main():
    folder, solver = pathlib.Path(sys.argv[1]), SOLVERS[sys.argv[2]]()
    month = reading.Reader(folder).month()
    award = Award(month, solver)
    scores = award.vector()
    is_whole = len(scores) == len(month.members)
    causes = causes_of(award, scores, reading.reasons(folder)) if is_whole else {}
    print(json.dumps({"vector": scores, "causes": causes, "calls": solver.calls, "solver": solver.seconds, "all": solving.user(),
                      "rows": len(award.model.rows), "missed": award.model.missed(reading.roster(folder, month))}))


main()
