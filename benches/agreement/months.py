"""Made-up months of June 2026, their files, and proofs that may close their goals."""
import datetime

import judge
import law

STATIONS = ["DUB", "LHR", "ORD", "DEN"]
WEEKDAYS = ["MON", "TUE", "WED", "THU", "FRI", "SAT", "SUN"]
EVENTS = "member,kind,report,parked,release,legs,credit\n"
# Whether lenses may look at whole lines.
WHOLE = False
# Whether members work on most days but those off, on which pairings begin, so that thirty free hours hang on what they fly.
FREE = False
OFF = range(4, 26, 6)


def duty(pick, report):
    parked = report + pick.randint(200, 600)
    out = report + pick.randint(0, 60)
    legs = [(out, min(parked, out + pick.randint(60, 140)))]
    return law.Event("flight", report, parked, parked + pick.choice([0, 1, 30]), legs)


def pairing(pick, number):
    need, credit = pick.choice([1] * 9 + [2]), pick.choice([61, 300, 305, 330, 599, 600])
    made = law.Pairing(f"P{number + 1}", need, credit, [], [], [])
    day = pick.choice(OFF) if FREE else pick.randint(4, 24)
    report = law.MONTH + 1440 * day + pick.choice([0, 30, 480, 487, 600, 1439])
    for _ in range(pick.choice([1, 1, 1, 2]) if FREE else pick.randint(1, 2)):
        made.duties.append(duty(pick, report))
        made.layovers.append(pick.choice(["", "ORD", "DEN"]))
        made.stations.append([(pick.choice(STATIONS), pick.choice(STATIONS))])
        report = made.duties[-1].release + pick.choice([600, 600, 700, 1200])
    return made


def busy_flights(pick, first, count):
    """Flights of ten hours, one a day, so that some window comes near its limit."""
    made = []
    for number in range(count):
        report = first + 1440 * number
        parked = report + pick.choice([600, 601])
        made.append(law.Event("flight", report, parked, parked, [(report, report + pick.choice([590, 600]))]))
    return made


def busy_days(pick):
    """A ground duty on each day but those off, and now and then on one of these, or on none."""
    made = []
    for day in range(29):
        if pick.random() < (0.1 if day in OFF else 0.95):
            report = law.MONTH + 1440 * day + pick.choice([420, 480])
            parked = report + pick.choice([300, 600, 601])
            made.append(law.Event("ground", report, parked, parked, []))
    return made


def fixed_events(pick):
    if FREE:
        return busy_days(pick)
    if pick.random() < 0.1:
        return busy_flights(pick, law.MONTH + 480, pick.choice([5, 6, 10, 11]))
    made, report = [], law.MONTH + 1440 * pick.randint(4, 8) + pick.choice([0, 480, 700])
    for _ in range(pick.choice([0, 0, 0, 1, 1, 2])):
        kind = pick.choice(["ground", "leave", "flight"])
        parked = report + pick.choice([60, 300, 600, 1440, 1441, 2000])
        release = parked + (pick.choice([0, 30]) if kind == "flight" else 0)
        legs = [(report + 5, report + 50)] if kind == "flight" else []
        made.append(law.Event(kind, report, parked, release, legs, pick.choice([0, 0, 30, 61])))
        report = release + pick.choice([0, 100, 600, 1800, 3000])
    return made


def history(pick):
    kind = pick.random()
    if kind < 0.1:
        return busy_flights(pick, law.MONTH - 1440 * 11, pick.choice([9, 10]))
    if kind < 0.2:
        report = law.MONTH - pick.randint(500, 1500)
        parked = report + pick.choice([100, 400])
        return [law.Event("ground", report, parked, parked, [])]
    return []


def atom(pick, pairings):
    words = ["layover", "departs", "arrives", "report before", "report after", "release before", "release after"]
    word = pick.choice(words + ["days", "weekday"] + ["pairing"] * bool(pairings))
    if word in words[:3]:
        value = pick.choice(STATIONS)
    elif word in words:
        value = pick.choice([0, 30, 480, 481, 600, 1439])
    elif word == "pairing":
        value = pick.choice(pairings).name
    else:
        value = pick.randint(1, 3)
    return pick.random() < 0.3, word, value


def wish(pick, pairings):
    word = pick.choice(["fly"] * bool(pairings) + ["avoid", "prefer", "off", "credit below", "credit above", "daysoff"])
    if word == "fly":
        return word, pick.choice(pairings).name
    if word == "avoid":
        return word, [atom(pick, pairings) for _ in range(pick.randint(1, 2))]
    if word == "prefer":
        return word, pick.choice([1, 1, 2]), [atom(pick, pairings) for _ in range(pick.randint(1, 2))]
    if word == "off":
        first = pick.randint(6, 24)
        return word, first, first + pick.choice([0, 0, 2])
    if word == "daysoff":
        return word, pick.choice([0, 5, 27, 28, 29, 30, 31])
    return word, pick.choice([0, 61, 300, 301, 600, 605])


def member(pick, number, pairings):
    low, high = pick.choice([(0, 5400)] * 8 + [(0, 330), (0, 320), (300, 600), (301, 600), (299, 301), (61, 61)])
    bids = [(pick.choice([1, 2, 5, 10]), wish(pick, pairings)) for _ in range(pick.choice([0, 1, 1, 2, 3]))]
    return law.Member(f"M{number + 1}", low, high, history(pick), fixed_events(pick), bids)


def free_hours_matter(month):
    """Whether some member may fly a line that lacks thirty free hours, but for these."""
    return any(
        law.no_free_block(month, member, line) is not None and law.illegality(month, member, line, but=3) is None
        for member in month.members
        for line in judge.lines(month)
    )


def month(pick):
    """A month; with `FREE` one in which free hours matter."""
    made = any_month(pick)
    while FREE and not free_hours_matter(made):
        made = any_month(pick)
    return made


def any_month(pick):
    pairings = [pairing(pick, number) for number in range(pick.randint(0, 4))]
    members = [member(pick, number, pairings) for number in range(pick.randint(1, 3))]
    return law.Month(pick.choice([0] * 6 + [5, 26, 27, 28, 29, 30]), pairings, members)


# ---- files


def moment(minute):
    return (law.FIRST_DAY + datetime.timedelta(minutes=minute)).strftime("%Y-%m-%dT%H:%MZ")


def minutes(total):
    return f"{total // 60}:{total % 60:02}"


def atom_text(negated, word, value):
    if word.endswith(("before", "after")):
        value = f"{value // 60:02}:{value % 60:02}"
    if word == "weekday":
        value = WEEKDAYS[value]
    return ("not " if negated else "") + f"{word} {value}"


def wish_text(word, *values):
    if word in ("avoid", "prefer"):
        *number, atoms = values
        return " ".join([word, *map(str, number), " and ".join(atom_text(*each) for each in atoms)])
    if word == "off":
        days = [f"2026-06-{day:02}" for day in sorted(set(values))]
        return "off " + " to ".join(days)
    if word.startswith("credit"):
        return f"{word} {minutes(*values)}"
    return f"{word} {values[0]}"


def event_row(name, event):
    legs = " ".join(f"{moment(out)}/{moment(landed)}" for out, landed in event.legs)
    times = [moment(event.report), moment(event.parked), moment(event.release)]
    return ",".join([name, event.kind, *times, legs, minutes(event.credit)]) + "\n"


def duty_rows(trip):
    for number, (duty, layover) in enumerate(zip(trip.duties, trip.layovers)):
        times = ",".join(moment(m) for m in [duty.report, duty.parked, duty.release])
        yield f"{trip.name},{number + 1},{times},{layover}\n"


def leg_rows(trip):
    for number, (duty, stations) in enumerate(zip(trip.duties, trip.stations)):
        for (begin, end), (out, landed) in zip(stations, duty.legs):
            yield f"{trip.name},{number + 1},{begin},{end},{moment(out)},{moment(landed)}\n"


def bid_lines(member):
    if member.bids:
        yield f"member {member.name}\n"
    for weight, each in member.bids:
        yield f"{weight} {wish_text(*each)}\n"


def files(month):
    trips, crew = month.pairings, month.members
    rules = f'base = "DUB"\nseat = "FO"\nyear = 2026\nmonth = 6\noffset = 0\ndays_off = {month.days_off}\n'
    return {
        "rules.toml": rules,
        "pairings.csv": "pairing,need,credit\n" + "".join(f"{p.name},{p.need},{minutes(p.credit)}\n" for p in trips),
        "duties.csv": "pairing,no,report,parked,release,layover\n" + "".join(r for p in trips for r in duty_rows(p)),
        "legs.csv": "pairing,no,from,to,out,in\n" + "".join(r for p in trips for r in leg_rows(p)),
        "crew.csv": "member,low,high\n" + "".join(f"{m.name},{minutes(m.low)},{minutes(m.high)}\n" for m in crew),
        "history.csv": EVENTS + "".join(event_row(m.name, e) for m in crew for e in m.history),
        "fixed.csv": EVENTS + "".join(event_row(m.name, e) for m in crew for e in m.fixed),
        "bids.txt": "".join(line for m in crew for line in bid_lines(m)),
    }


def roster_text(month, roster, scores):
    text = "member,pairings,credit,score\n"
    for member, line, score in zip(month.members, roster, scores):
        names = " ".join(month.pairings[p].name for p in line)
        text += f"{member.name},{names},{minutes(law.credit(month, member, line))},{score}\n"
    return text


def reasons_text(month, reasons):
    text = ""
    for (m, b), place in reasons:
        member = month.members[m]
        weight, wish = member.bids[b]
        named = f"place {place} {month.members[place - 1].name}" if place else "place 0"
        text += f"{member.name} {b + 1} {'tie' if place is None else named}: {weight} {wish_text(*wish)}\n"
    return text


def lens_text(lens):
    grain, tracked, free30, days, windows, _ = lens
    words = [str(grain), f"{tracked:016x}", str(int(free30)), str(int(days))]
    return " ".join(words + [f"{kind}:{start}" for kind, start in windows])


def item_text(word, *parts):
    if word == "noline":
        return f"noline {parts[0] + 1} {'whole ' if parts[1][-1] else ''}{lens_text(parts[1])}\n"
    if word == "weights":
        weights, lenses = parts
        heading = " ".join(["weights", str(len(lenses)), *map(str, weights)])
        return heading + "\n" + "".join(f"{'whole' if lens[-1] else 'lens'} {lens_text(lens)}\n" for lens in lenses)
    return " ".join([word, *(str(number + 1) for number in parts)]) + "\n"


def proof_text(items):
    return f"proof {len(items)}\n" + "".join(item_text(*item) for item in items)


def part_text(items, roster):
    proofs = [] if items is None else [items]
    rows = "".join(" ".join(["line", *(str(p + 1) for p in line)]) + "\n" for line in roster or [])
    return f"shown {len(proofs)} {len(roster or [])}\n" + "".join(map(proof_text, proofs)) + rows


def certificate_text(form, proofs, shown=()):
    text = f"pbs-certificate 1\n{form}\n" + "".join(proof_text(items) for items in proofs)
    return text + "".join(part_text(*part) for part in shown) + "end\n"


# ---- proofs


def lens(pick, member):
    whole = WHOLE and pick.random() < 0.6
    tracked = sum(
        1 << bid
        for bid, (_, wish) in enumerate(member.bids)
        if (whole or law.can_be_tracked(wish)) and pick.random() < 0.7
    )
    if pick.random() < 0.04:
        tracked |= 1 << pick.randint(0, 5)
    windows = []
    if pick.random() < 0.2:
        starts = [("f672", 485_281), ("f672", 512_160), ("d672", 525_600), ("d168", 515_521), ("d168", 526_080)]
        starts += [("f365", 365), ("f365", 401), ("f672", 578_879)]
        windows = [pick.choice(starts) for _ in range(pick.randint(1, 5))]
    if pick.random() < 0.02:
        windows.append(pick.choice([("f672", 485_280), ("d168", 515_520), ("f365", 402), ("f365", 364)]))
    grain = pick.choice([60, 60, 30, 15, 5, 1]) if pick.random() < 0.97 else 7
    return grain, tracked, pick.random() < (0.9 if FREE else 0.4), pick.random() < 0.4, windows, whole


def nearly(pick, count):
    """A number below the count, and now and then the count itself."""
    return count if count == 0 or pick.random() < 0.03 else pick.randrange(count)


def leaf(pick, month):
    crew, trips = len(month.members), len(month.pairings)
    word = pick.choice(["count", "fixed", "noline", "weights", "weights"])
    if word == "count":
        return word, nearly(pick, trips)
    if word == "fixed":
        return word, nearly(pick, crew)
    if word == "noline":
        m = nearly(pick, crew)
        return word, m, lens(pick, month.members[min(m, crew - 1)])
    size = 2_147_483_647 if pick.random() < 0.1 else 3
    weights = [pick.choice([-size, -2, -1, 0, 1, 2, size]) for _ in range(trips)]
    lenses = [lens(pick, member) for member in month.members]
    if pick.random() < 0.03:
        (weights if pick.random() < 0.5 and weights else lenses).pop()
    return word, weights, lenses


def proof(pick, month, goal, node=(), depth=4):
    """Items that close the goal where some are found, and else end in one that does not."""
    for _ in range(12):
        item = leaf(pick, month)
        if judge.item_fault(month, goal, node, item) is None:
            return [item]
    crew, trips = range(len(month.members)), range(len(month.pairings))
    pairs = [(m, p) for m in crew for p in trips if judge.decided(node, m, p) is None]
    if depth == 0 or not pairs:
        return [leaf(pick, month)]
    m, p = pick.choice(pairs)
    flown = proof(pick, month, goal, node + ((m, p, True),), depth - 1)
    return [("split", m, p)] + flown + proof(pick, month, goal, node + ((m, p, False),), depth - 1)
