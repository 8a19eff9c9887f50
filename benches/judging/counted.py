#!/usr/bin/env python3
"""The first rule that lines break, counted minute by minute: the rows of crates/engine_tests/src/legality.rt, by nothing of the program.

    counted.py            prints the rows of both tables

It reads the month of eight pairings from crates/engine_tests/src/months.rt and judges lines of its pairings: a 1 takes one, the
first pairing first. The second table has the history of a year that flies 1,000 hours (crates/engine_tests/src/years.rt)."""
import datetime
import pathlib

TOP = pathlib.Path(__file__).resolve().parents[2]
BEGIN, MONTH, DAYS = datetime.datetime(2025, 6, 1), 525_600, 30
END = MONTH + 1440 * (DAYS + 7)
YEAR = [("2025-06", 10, 10), ("2025-06", 21, 30), ("2025-07", 1, 31), ("2025-08", 1, 31), ("2025-09", 1, 30),
        ("2025-10", 1, 31), ("2025-11", 1, 30), ("2025-12", 1, 31), ("2026-01", 1, 5)]


def minute(text):
    return int((datetime.datetime.strptime(text, "%Y-%m-%dT%H:%MZ") - BEGIN).total_seconds() // 60)


def files():
    source = (TOP / "crates/engine_tests/src/months.rt").read_text()
    month = source.split("\n\neight-pairings\n", 1)[1].split("\n\n", 1)[0]
    named = dict(line.split(" ", 1) for line in month.splitlines() if " " in line)
    return {name: [row.split(",") for row in text.split("\\n")[1:-1]] for name, text in named.items() if name.endswith(".csv")}


def event(row):
    kind, report, parked, release, legs, credit = row[1:]
    flown = [tuple(map(minute, leg.split("/"))) for leg in legs.split()]
    return kind, minute(report), minute(parked), minute(release), flown, clock(credit)


def clock(text):
    hours, minutes = text.split(":")
    return int(hours) * 60 + int(minutes)


def year():
    row = "M1,flight,{0}T08:00Z,{0}T14:00Z,{0}T14:30Z,{0}T09:00Z/{0}T14:00Z,0:00"
    days = [f"{month}-{day:02}" for month, first, last in YEAR for day in range(first, last + 1)]
    return [event(row.format(day).split(",")) for day in days]


def first_fault(history, fixed, trips, low, high, days_off):
    """The name of the first rule that fails, and its number."""
    taken, busy, reports, duty, period, flying = ([0] * END for _ in range(6))
    flights, credit = [], sum(it[5] for it in fixed) + sum(it[1] for it in trips)

    def mark(counts, start, stop):
        for at in range(start, stop):
            counts[at] += 1

    def fly(report, parked, release):
        flights.append((report, parked, release))
        mark(duty, report, release)
        mark(period, report, parked)
        reports[report] += 1

    for kind, report, parked, release, flown, _ in history + fixed:
        if kind == "flight":
            fly(report, parked, release)
        elif kind == "ground":
            mark(duty, report, release)
        for out_at, in_at in flown:
            mark(flying, out_at, in_at)
    for kind, report, _, release, _, _ in fixed:
        mark(taken, report, release)
        if kind != "leave":
            mark(busy, report, release)
    for duties, _ in trips:
        for report, parked, release, flown in duties:
            fly(report, parked, release)
            for out_at, in_at in flown:
                mark(flying, out_at, in_at)
        for counts in (taken, busy):
            mark(counts, min(it[0] for it in duties), max(it[2] for it in duties))
    shared = [at for at in range(END) if taken[at] > 1]
    if shared:
        return "Overlap", shared[0]
    coming = [at for at in range(MONTH, END) if reports[at]]
    for at in coming:
        if any(duty[at - 600:at]):
            return "Rest", at
    for at in coming:
        if all(any(duty[start:start + 1800]) for start in range(at - 10_080, at - 1800 + 1)):
            return "Free30", at
    for name, counts, width, limit in (("Flight672", flying, 40_320, 6000), ("Duty168", period, 10_080, 3600), ("Duty672", period, 40_320, 11_400)):
        total = [0]
        for it in counts:
            total.append(total[-1] + (it > 0))
        sums = [(total[min(start + width, END)] - total[start], -start) for start in range(MONTH + 1 - width, END)]
        most, start = max(sums)
        if most > limit:
            return name, -start
    by_day = [sum(it > 0 for it in flying[1440 * day:1440 * (day + 1)]) for day in range(END // 1440)]
    most, last = max((sum(by_day[first:first + 365]), -(first + 364)) for first in range(1, DAYS + 7 + 1))
    if most > 60_000:
        return "Flight365", -last
    fourth = [it for it in map(lambda flight: fourth_night(flights, flight), flights) if it is not None and it >= MONTH]
    if fourth:
        return "Night", min(fourth)
    if not low <= credit <= high:
        return "Credit", credit
    off = sum(not any(busy[1440 * day:1440 * (day + 1)]) for day in range(365, 365 + DAYS))
    return ("DaysOff", off) if off < days_off else ("", 0)


def is_night(flight):
    return any(120 <= at % 1440 < 360 for at in range(flight[0], flight[1]))


def fourth_night(flights, first):
    """The report of the third night behind this one, where each follows within thirty hours as the next flight."""
    if not is_night(first):
        return None
    for _ in range(3):
        later = [it for it in flights if it[0] > first[0]]
        if not later or not is_night(min(later)) or min(later)[0] >= first[2] + 1800:
            return None
        first = min(later)
    return first[0]


def rows(history, count, texts):
    fixed = [event(row) for row in texts["fixed.csv"]]
    low, high = map(clock, texts["crew.csv"][0][1:])
    trips = []
    for name, _, credit in texts["pairings.csv"]:
        legs = {row[1]: [(minute(it[4]), minute(it[5])) for it in texts["legs.csv"] if it[0] == name and it[1] == row[1]] for row in texts["duties.csv"] if row[0] == name}
        duties = [(minute(row[2]), minute(row[3]), minute(row[4]), legs[row[1]]) for row in texts["duties.csv"] if row[0] == name]
        trips.append((duties, clock(credit)))
    bits = 0
    for _ in range(count):
        bits = (5 * bits + 5) % 256
        line = [it for k, it in enumerate(trips) if bits >> k & 1]
        yield bits, first_fault(history, fixed, line, low, high, 17)


SAID = {"Overlap": "an overlap at minute", "Rest": "no rest before minute", "Free30": "no 30 hours free before minute",
        "Flight672": "too much flight time in 672 hours from minute", "Duty168": "too long flight duty periods in 168 hours from minute",
        "Duty672": "too long flight duty periods in 672 hours from minute", "Flight365": "too much flight time in the 365 days to day",
        "Night": "a fourth night in a row from minute"}


def said(name, number):
    if name in SAID:
        return f"{SAID[name]} {number}"
    return {"Credit": f"a credit of {number} minutes", "DaysOff": f"{number} days off", "": "legal"}[name]


def main():
    texts = files()
    for history, count in (([event(row) for row in texts["history.csv"]], 48), (year(), 16)):
        for bits, fault in rows(history, count, texts):
            print(f"{bits:08b}"[::-1], "=>", said(*fault))
        print()


main()
