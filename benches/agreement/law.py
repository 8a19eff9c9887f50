"""The law and the bids of a month, by the rules of docs/PROBLEM.md and docs/FORMATS.md. It knows nothing of the crates."""
import dataclasses
import datetime

MONTH, DAYS = 525_600, 30
END = MONTH + 1440 * (DAYS + 7)
FIRST_DAY = datetime.datetime(2026, 6, 1) - datetime.timedelta(days=365)


@dataclasses.dataclass
class Event:
    """A duty, a fixed event or one of the history. Flights have legs, as pairs of out and in."""

    kind: str
    report: int
    parked: int
    release: int
    legs: list
    credit: int = 0


@dataclasses.dataclass
class Pairing:
    """Each duty has its layover, and the stations of its legs."""

    name: str
    need: int
    credit: int
    duties: list
    layovers: list
    stations: list

    def span(self):
        return self.duties[0].report, self.duties[-1].release


@dataclasses.dataclass
class Member:
    name: str
    low: int
    high: int
    history: list
    fixed: list
    bids: list


@dataclasses.dataclass
class Month:
    days_off: int
    pairings: list
    members: list


def days(first, end):
    """The days that the minutes from `first` to `end - 1` touch."""
    return range(first // 1440, (end - 1) // 1440 + 1)


# ---- bids


def fits_test(pairing, word, value):
    begin, end = pairing.span()
    if word == "layover":
        return value in pairing.layovers
    if word == "departs":
        return any(value == station for duty in pairing.stations for station, _ in duty)
    if word == "arrives":
        return any(value == station for duty in pairing.stations for _, station in duty)
    if word == "report before":
        return begin % 1440 < value
    if word == "report after":
        return begin % 1440 > value
    if word == "release before":
        return end % 1440 < value
    if word == "release after":
        return end % 1440 > value
    if word == "days":
        return len(days(begin, end)) == value
    if word == "weekday":
        return any((FIRST_DAY + datetime.timedelta(days=d)).weekday() == value for d in days(begin, end))
    return pairing.name == value


def fits(pairing, atoms):
    return all(fits_test(pairing, word, value) != negated for negated, word, value in atoms)


def credit(month, member, line):
    return sum(e.credit for e in member.fixed) + sum(month.pairings[p].credit for p in line)


def touched_days(month, member, line):
    spans = [month.pairings[p].span() for p in line]
    spans += [(e.report, e.release) for e in member.fixed if e.kind != "leave"]
    return {d for span in spans for d in days(*span)}


def days_off(month, member, line):
    return DAYS - len([d for d in touched_days(month, member, line) if 365 <= d < 365 + DAYS])


def is_granted(month, member, wish, line):
    word, *values = wish
    if word == "fly":
        return values[0] in [month.pairings[p].name for p in line]
    if word == "avoid":
        return not any(fits(month.pairings[p], values[0]) for p in line)
    if word == "prefer":
        return sum(fits(month.pairings[p], values[1]) for p in line) >= values[0]
    if word == "off":
        wanted = range(364 + values[0], 365 + values[1])
        return not touched_days(month, member, line) & set(wanted)
    if word == "credit below":
        return credit(month, member, line) < values[0]
    if word == "credit above":
        return credit(month, member, line) > values[0]
    return days_off(month, member, line) >= values[0]


def score(month, member, line):
    return sum(weight for weight, wish in member.bids if is_granted(month, member, wish, line))


def can_be_tracked(wish):
    return wish[0] in ("fly", "avoid", "off") or wish[:2] == ("prefer", 1)


# ---- the limits


def events(month, member, line):
    return member.history + coming(month, member, line)


def coming(month, member, line):
    return member.fixed + [duty for p in line for duty in month.pairings[p].duties]


def duty_intervals(month, member, line):
    return [(e.report, e.release) for e in events(month, member, line) if e.kind != "leave"]


def period_intervals(month, member, line):
    return [(e.report, e.parked) for e in events(month, member, line) if e.kind == "flight"]


def flying_intervals(month, member, line):
    return [leg for e in events(month, member, line) for leg in e.legs]


def reports(month, member, line):
    return sorted(e.report for e in coming(month, member, line) if e.kind == "flight")


def overlap(month, member, line):
    """The least minute at which a span begins in or with another."""
    spans = [(e.report, e.release) for e in member.fixed] + [month.pairings[p].span() for p in line]
    spans.sort()
    begun = [b[0] for i, a in enumerate(spans) for b in spans[i + 1 :] if b[0] < a[1]]
    return min(begun, default=None)


def short_rest(month, member, line):
    duty = duty_intervals(month, member, line)
    return next((r for r in reports(month, member, line) if any(a < r and r - 600 < b for a, b in duty)), None)


def has_free_block(duty, report):
    first, last = report - 10_080, report - 1_800
    begins = [first] + [end for _, end in duty]
    return any(first <= t <= last and not any(a < t + 1_800 and t < b for a, b in duty) for t in begins)


def no_free_block(month, member, line):
    duty = duty_intervals(month, member, line)
    return next((r for r in reports(month, member, line) if not has_free_block(duty, r)), None)


def is_night(flight):
    days_of = range(flight.report // 1440, (flight.parked - 1) // 1440 + 1)
    return any(flight.report < 1440 * d + 360 and 1440 * d + 120 < flight.parked for d in days_of)


def fourth_night(month, member, line):
    """The least report, of the month or later, of a flight that is the fourth night in a row."""
    row, before = 0, None
    for flight in sorted((e for e in events(month, member, line) if e.kind == "flight"), key=lambda e: e.report):
        if before is None or flight.report - before.release >= 1_800 or not is_night(flight):
            row = 0
        row += is_night(flight)
        if row >= 4 and flight.report >= MONTH:
            return flight.report
        before = flight
    return None


def minutes_in(intervals, start, end):
    """Minutes of the union. Intervals of one member do not overlap where these are counted."""
    return sum(max(0, min(b, end) - max(a, start)) for a, b in intervals)


def fullest(intervals, width, first, last):
    """The greatest total of a window that begins from `first` to `last`, and the least such begin."""
    begins = {first} | {a for a, _ in intervals} | {b - width for _, b in intervals}
    return min((-minutes_in(intervals, t, t + width), t) for t in begins if first <= t <= last)


def broken_limit(month, member, line):
    """The first limit on windows and years that is broken, as its code and place."""
    flying, period = flying_intervals(month, member, line), period_intervals(month, member, line)
    for code, intervals, width, most in [
        (4, flying, 40_320, 6_000),
        (5, period, 10_080, 3_600),
        (6, period, 40_320, 11_400),
    ]:
        total, begin = fullest(intervals, width, MONTH - width + 1, END - 1)
        if -total > most:
            return code, begin
    for day in range(365, 365 + DAYS + 7):
        if minutes_in(flying, 1440 * (day - 364), 1440 * (day + 1)) > 60_000:
            return 7, day
    return None


def illegality(month, member, line, but=None):
    """The first rule that the line breaks, as its code and place, or None, where of the first three one may be left out."""
    for code, place in [(1, overlap), (2, short_rest), (3, no_free_block)]:
        found = None if code == but else place(month, member, line)
        if found is not None:
            return code, found
    limit = broken_limit(month, member, line)
    if limit is not None:
        return limit
    night = fourth_night(month, member, line)
    if night is not None:
        return 10, night
    total, off = credit(month, member, line), days_off(month, member, line)
    if not member.low <= total <= member.high:
        return 8, total
    if off < month.days_off:
        return 9, off
    return None
