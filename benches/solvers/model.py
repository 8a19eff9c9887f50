"""A month as a mixed-integer program: who flies what, which bids are granted, and rows for what the law says.

A column for each member and pairing, where the pairing alone is legal for the member; one for each bid; one for each day that
a member's pairings may touch. Rows: crews; rest and overlap, as cliques of spans with ten hours behind them; the window of
credit; days off; what each bid asks. Free hours, limits on windows and nights come as rows once a line breaks them.
"""
from reading import law

REST = 600
MONOTONE = [law.overlap, law.short_rest, law.no_free_block, law.broken_limit]


class Rows:
    """Rows `low <= sum of value * column <= high`, and columns with the most that each may be; all are whole, from 0."""

    def __init__(self):
        self.most, self.rows = [], []

    def column(self, most=1):
        self.most.append(most)
        return len(self.most) - 1

    def add(self, terms, low=None, high=None):
        summed = {}
        for value, column in terms:
            summed[column] = summed.get(column, 0) + value
        self.rows.append((summed, low, high))


def maximal(sets):
    """The sets that lie in no other one."""
    sets = sorted(set(map(frozenset, sets)), key=len, reverse=True)
    return [one for at, one in enumerate(sets) if not any(one < other for other in sets[:at])]


def touches(spans, first, last):
    return any(first <= d <= last for span in spans for d in law.days(*span))


class Model(Rows):
    def __init__(self, month):
        super().__init__()
        self.month = month
        self.flies, self.grants = {}, {}
        # Of each member: what the pairings flown are worth, the days that they touch, and the days off where none is flown.
        self.total, self.days, self.touched, self.free = {}, {}, {}, {}
        self.cliques = self.cliques_of()
        for m in range(len(month.members)):
            self.add_member(m)
        for p, pairing in enumerate(month.pairings):
            crew = [(1, self.flies[m, p]) for m in range(len(month.members)) if (m, p) in self.flies]
            self.add(crew, pairing.need, pairing.need)

    def cliques_of(self):
        """Pairings of which a member flies one at most."""
        spans = [(begin, end + REST) for begin, end in (pairing.span() for pairing in self.month.pairings)]
        return maximal({p for p, (begin, end) in enumerate(spans) if begin <= at < end} for at, _ in spans)

    def columns_of(self, m, pairings):
        return [(1, self.flies[m, p]) for p in pairings if (m, p) in self.flies]

    def add_member(self, m):
        month, member = self.month, self.month.members[m]
        for p in range(len(month.pairings)):
            if not any(rule(month, member, (p,)) for rule in MONOTONE):
                self.flies[m, p] = self.column()
        for clique in self.cliques:
            self.add(self.columns_of(m, clique), high=1)
        self.total[m] = [(month.pairings[p].credit, column) for (of, p), column in self.flies.items() if of == m]
        fixed = law.credit(month, member, ())
        self.add(self.total[m], member.low - fixed, member.high - fixed)
        self.add_days(m)
        for number, (_, wish) in enumerate(member.bids):
            self.grants[m, number] = self.column()
            self.add_bid(m, wish, self.grants[m, number], fixed)

    def add_days(self, m):
        """Days that the member's pairings touch, of those that nothing fixed touches."""
        month, member = self.month, self.month.members[m]
        taken = law.touched_days(month, member, ())
        self.free[m] = law.days_off(month, member, ())
        self.days[m] = {d: self.column() for d in range(365, 365 + law.DAYS) if d not in taken}
        self.touched[m] = [(1, column) for column in self.days[m].values()]
        for d, column in self.days[m].items():
            touching = {p for p, pairing in enumerate(month.pairings) if (m, p) in self.flies and d in law.days(*pairing.span())}
            for met in self.met(touching):
                self.add([(-1, column), *self.columns_of(m, met)], high=0)
        self.add(self.touched[m], high=self.free[m] - month.days_off)

    def add_bid(self, m, wish, grant, fixed):
        """Where the bid's column is 1, the bid is granted."""
        month, member = self.month, self.month.members[m]
        word, *values = wish
        if word == "fly":
            named = [p for p, pairing in enumerate(month.pairings) if pairing.name == values[0]]
            self.add([(-1, grant), *self.columns_of(m, named)], low=0)
        elif word == "avoid":
            self.add_none(m, grant, {p for p, pairing in enumerate(month.pairings) if law.fits(pairing, values[0])})
        elif word == "prefer":
            fit = [p for p, pairing in enumerate(month.pairings) if law.fits(pairing, values[1])]
            self.add([(-values[0], grant), *self.columns_of(m, fit)], low=0)
        elif word == "off":
            first, last = 364 + values[0], 364 + values[1]
            spans = [(e.report, e.release) for e in member.fixed if e.kind != "leave"]
            if touches(spans, first, last):
                self.add([(1, grant)], high=0)
            self.add_none(m, grant, {p for p, pairing in enumerate(month.pairings) if touches([pairing.span()], first, last)})
        elif word == "credit below":
            self.add([*self.total[m], (member.high, grant)], high=values[0] - 1 - fixed + member.high)
        elif word == "credit above":
            self.add([*self.total[m], (-member.high, grant)], low=values[0] + 1 - fixed - member.high)
        else:
            self.add([*self.touched[m], (law.DAYS, grant)], high=self.free[m] - values[0] + law.DAYS)

    def met(self, pairings):
        """These pairings by cliques: each pair of them that no member flies lies in one."""
        return maximal(clique & pairings for clique in self.cliques if clique & pairings)

    def add_none(self, m, grant, pairings):
        """Where the bid is granted, none of these is flown."""
        for met in self.met(pairings):
            self.add([(1, grant), *self.columns_of(m, met)], high=1)

    def columns_for(self, roster):
        """The columns as the roster has them."""
        columns = [0] * len(self.most)
        for m, (member, line) in enumerate(zip(self.month.members, roster)):
            touched = law.touched_days(self.month, member, line)
            for p in line:
                columns[self.flies[m, p]] = 1
            for number, (_, wish) in enumerate(member.bids):
                columns[self.grants[m, number]] = int(law.is_granted(self.month, member, wish, line))
            for d, column in self.days[m].items():
                columns[column] = int(d in touched)
        return columns

    def missed(self, roster):
        """How many rows the roster misses."""
        columns = self.columns_for(roster)
        sums = [(sum(value * columns[column] for column, value in row.items()), low, high) for row, low, high in self.rows]
        return sum(low is not None and found < low or high is not None and found > high for found, low, high in sums)

    def score(self, m):
        return [(weight, self.grants[m, number]) for number, (weight, _) in enumerate(self.month.members[m].bids)]

    # ---- what a line that is illegal breaks

    def forbid(self, m, line):
        """Adds a row that the illegal line does not meet, and every legal one does."""
        month, member = self.month, self.month.members[m]
        code, place = law.illegality(month, member, line)
        if code == 3:
            core = self.core(line, lambda left: place in no_free_blocks(month, member, left))
            self.add(self.columns_of(m, core), high=len(core) - 1)
        elif code == 10:
            self.forbid_nights(m, line, place)
        else:
            self.forbid_window(m, code, place)

    def core(self, line, breaks):
        """A part of the line that still breaks the rule, and no less of it does."""
        left = list(line)
        for p in line:
            fewer = [q for q in left if q != p]
            if breaks(fewer):
                left = fewer
        return left

    def forbid_window(self, m, code, place):
        """The limit of the window at this place, for all pairings."""
        month, member = self.month, self.month.members[m]
        width, most, intervals = {
            4: (40_320, 6_000, law.flying_intervals), 5: (10_080, 3_600, law.period_intervals),
            6: (40_320, 11_400, law.period_intervals), 7: (525_600, 60_000, law.flying_intervals),
        }[code]
        start = 1440 * (place - 364) if code == 7 else place
        counted = lambda line: law.minutes_in(intervals(month, member, line), start, start + width)
        known = counted(())
        terms = [(counted((p,)) - known, column) for (of, p), column in self.flies.items() if of == m]
        self.add([term for term in terms if term[0]], high=most - known)

    def forbid_nights(self, m, line, place):
        """Four nights in a row are flown only with a flight between them."""
        month, member = self.month, self.month.members[m]
        flights = sorted((e for e in law.events(month, member, line) if e.kind == "flight"), key=lambda e: e.report)
        last = next(at for at, flight in enumerate(flights) if flight.report == place)
        first = flights[last - 3].report
        between = {p for p, pairing in enumerate(month.pairings) if any(first <= d.report <= place for d in pairing.duties)}
        flown = between & set(line)
        others = [(-1, column) for _, column in self.columns_of(m, between - flown)]
        self.add([*self.columns_of(m, flown), *others], high=len(flown) - 1)


def no_free_blocks(month, member, line):
    duty = law.duty_intervals(month, member, line)
    return [report for report in law.reports(month, member, line) if not law.has_free_block(duty, report)]
