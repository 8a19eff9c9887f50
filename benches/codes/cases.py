"""Months of examples/ with something changed, and the first line that the program prints for each.

A case is the line, the folder, the words and the changes. A change is a file with the old text, which stands in it, and the
new one; or with the text that the file holds from then on; or with nothing, and the file is not there any more.
"""
import datetime

ONE, TWO, FOUR, SIXTY, NONE = "one-pilot", "two-pilots-seniority", "four-pilots", "sixty-hours", "no-roster"
TRADES, OPEN = "trades", "open-time"
HEAD = "member,kind,report,parked,release,legs,credit\n"
PRICED = """pbs-certificate 1
award 2 1
proof 1
noline 1 60 0000000000000000 0 0
proof 1
weights 2 -1
lens 60 0000000000000001 0 0
lens 60 0000000000000001 0 0
shown 1 2
proof 1
weights 2 -1
lens 60 0000000000000001 0 0
lens 60 0000000000000001 0 0
line
line 1
end
"""
PRICED_TWO = """pbs-certificate 2
award 2 1
proof 1 1
lens 60 0000000000000000 0 0
noline 1 1
proof 1 1
lens 60 0000000000000001 0 0
weights 1 1:-1
by 1 1
shown 1 2
proof 1 1
lens 60 0000000000000001 0 0
weights 1 1:-1
by 1 1
line
line 1
end
"""
EIGHTS = "".join(f",2026-06-10T0{hour}:00Z/2026-06-10T0{hour}:30Z".replace(",", " ") for hour in range(1, 10)).strip()


def check(line, folder, *changes):
    return line, folder, ["check"], changes


def proof(line, *items, folder=ONE):
    """A case of the first proof of a certificate of one award, with these items."""
    text = f"pbs-certificate 1\naward 1 0\nproof {len(items)}\n" + "".join(f"{item}\n" for item in items) + "end\n"
    return check(line, folder, ("certificate.txt", text))


def lens(line, *words):
    return proof(line, f"noline 1 {' '.join(words)}")


def event(kind, report, parked, release, legs="", credit="0:00"):
    return f"M1,{kind},{report},{parked},{release},{legs},{credit}\n"


def ground(start, end):
    return event("ground", start, end, end)


def flights(days, out, back, parked):
    """A flight from 07:00 on each day."""
    return "".join(event("flight", f"{day}T07:00Z", f"{day}T{parked}Z", f"{day}T{parked}Z", f"{day}T{out}Z/{day}T{back}Z")
                   for day in days)


def days(first, count):
    return [datetime.date.fromisoformat(first) + datetime.timedelta(days=n) for n in range(count)]


def bids(line, text):
    return check(line, ONE, ("bids.txt", text))


# Two members with four pairings between them, two each: who wants what is not seen at once.
TIGHT = (
    ("crew.csv", "member,low,high\nM1,20:00,20:00\nM2,20:00,20:00\n"),
    ("pairings.csv", "pairing,need,credit\n" + "".join(f"P{p},1,10:00\n" for p in (1, 2, 3, 4))),
    ("duties.csv", "pairing,no,report,parked,release,layover\n" + "".join(
        f"P{p},1,2026-06-{d:02}T08:00Z,2026-06-{d:02}T14:00Z,2026-06-{d:02}T14:30Z,{s}\n"
        f"P{p},2,2026-06-{d + 1:02}T10:00Z,2026-06-{d + 1:02}T16:00Z,2026-06-{d + 1:02}T16:30Z,\n"
        for p, d, s in ((1, 3, "ORD"), (2, 6, "DEN"), (3, 13, "ORD"), (4, 16, "DEN")))),
    ("legs.csv", "pairing,no,from,to,out,in\n" + "".join(
        f"P{p},1,DUB,{s},2026-06-{d:02}T09:00Z,2026-06-{d:02}T13:00Z\n"
        f"P{p},2,{s},DUB,2026-06-{d + 1:02}T11:00Z,2026-06-{d + 1:02}T15:00Z\n"
        for p, d, s in ((1, 3, "ORD"), (2, 6, "DEN"), (3, 13, "ORD"), (4, 16, "DEN")))),
)
WEEKS = "member M1\n10 off 2026-06-03 to 2026-06-07\n10 off 2026-06-13 to 2026-06-17\n"
CITIES = "member M2\n10 avoid layover ORD\n10 avoid layover DEN\n"
# The award where M1 has bids and M2 has none.
AWARDED = (
    ("bids.txt", WEEKS),
    ("certificate.txt", """pbs-certificate 2
award 2 1
proof 1 1
lens 60 0000000000000003 0 0
noline 1 1
proof 1 1
lens 60 0000000000000000 0 0
noline 2 1
shown 0 2
line 1 2
line 3 4
end
"""),
    ("reasons.txt", "M1 2 tie: 10 off 2026-06-13 to 2026-06-17\n"),
    ("roster.csv", "member,pairings,credit,score\nM1,P3 P4,20:00,10\nM2,P1 P2,20:00,0\n"),
)


STATUSES = [
    ("award", ONE, ["award"], ()),
    ("no roster", NONE, ["award"], ()),
    ("budget 1", TWO, ["award", "--nodes", "1"], (*TIGHT, ("bids.txt", WEEKS + CITIES))),
    check("yes", ONE),
    check("yes none", NONE),
    ("usage: pbs FOLDER award [--nodes N] | check | show MEMBER | make NUMBER MEMBERS PAIRINGS | "
     "trial NUMBER MEMBERS PAIRINGS [--nodes N] | migrate | trade | whatif MEMBER [--nodes N] | calendar MEMBER | open V [--nodes N] | "
     "opencheck V", ONE, ["award", "--nodes", "0"], ()),
    check("missing legs.csv", ONE, ("legs.csv",)),
    check("missing rules.toml", "no-such-month"),
    check("read fault crew.csv", ONE, ("crew.csv", "a folder")),
    check("too long bids.txt", ONE, ("bids.txt", 67_108_865)),
    ("write fault certificate.txt", ONE, ["award"], (("certificate.txt", "a folder"),)),
]

COMMANDS = [
    ("made 2 members 3 pairings", ONE, ["make", "7", "2", "3"], ()),
    ("award", ONE, ["trial", "7", "2", "3"], ()),
    ("member M1 credit 5:00 of 0:00 to 90:00 score 10 daysoff 29", ONE, ["show", "M1"], ()),
    ("no member M9", ONE, ["show", "M9"], ()),
    ("no roster 2 5", ONE, ["show", "M1"], (("roster.csv", "5:00,10", "5:00,11"),)),
]

RULES = [
    check("bad rules.toml 1", ONE, ("rules.toml", 'base = "DUB"', "base = “DUB”")),
    check("bad rules.toml 2 month", ONE, ("rules.toml", "month = 6\n", "")),
    check("bad rules.toml 3 Month", ONE, ("rules.toml", "month = 6\n", "month = 6\nMonth = 6\n")),
    check("bad rules.toml 4 base", ONE, ("rules.toml", '"DUB"', '"EIDW"')),
]

FILES = [
    check("bad pairings.csv 1 1", FOUR, ("pairings.csv", "pairing,need", "pairing;need")),
    check("bad crew.csv 2 2", FOUR, ("crew.csv", b"member,low,high\nZo\xeb,10:00,30:00\n")),
    check("bad pairings.csv 4 3", FOUR, ("pairings.csv", "PAR06,1,5:00", "PAR06,1,5:00,")),
    check("bad pairings.csv 12 4 1 1", FOUR, ("pairings.csv", "BOS26,1,10:00\n", "BOS26,1,10:00\n,,\n")),
    check("bad pairings.csv 2 4 3 2 2", FOUR, ("pairings.csv", "LON02,1,5:00", "LON02,1,05:00")),
    check("bad pairings.csv 2 4 3 3", FOUR, ("pairings.csv", "LON02,1,5:00", "LON02,1,5:60")),
    check("bad duties.csv 2 4 3 4", FOUR, ("duties.csv", "2026-06-02T07:00Z", "2026-02-30T07:00Z")),
    check("bad duties.csv 2 4 3 5", FOUR, ("duties.csv", "2026-06-02T07:00Z", "2025-05-02T07:00Z")),
    check("bad crew.csv 3 5", FOUR, ("crew.csv", "Ben", "Ada")),
    check("bad pairings.csv 3 5", FOUR, ("pairings.csv", "BOS04", "LON02")),
    check("bad duties.csv 2 6", FOUR, ("duties.csv", "LON02", "LON2")),
    check("bad legs.csv 2 6", FOUR, ("legs.csv", "LON02,1", "LON02,2")),
    check("bad fixed.csv 2 6", ONE, ("fixed.csv", HEAD + ground("2026-06-02T08:00Z", "2026-06-02T12:00Z").replace("M1", "M9"))),
    check("bad duties.csv 4 7", FOUR, ("duties.csv", "BOS04,2", "BOS04,3")),
    check("bad legs.csv 2 7", FOUR, ("legs.csv", "T09:45Z", "T07:45Z")),
    check("bad crew.csv 2 7", FOUR, ("crew.csv", "10:00,30:00", "30:00,10:00")),
    check("bad fixed.csv 2 7", ONE, ("fixed.csv", HEAD + event("leave", "2026-06-02T00:00Z", "2026-06-02T12:00Z",
                                                                "2026-06-03T00:00Z"))),
    check("bad duties.csv 2 8", FOUR, ("duties.csv", "2026-06-02T07:00Z", "2026-05-02T07:00Z")),
    check("bad history.csv 2 8", ONE, ("history.csv", HEAD + ground("2026-06-02T08:00Z", "2026-06-02T12:00Z"))),
    check("bad fixed.csv 2 8", ONE, ("fixed.csv", HEAD + ground("2026-05-31T08:00Z", "2026-06-02T12:00Z"))),
    check("bad duties.csv 4 9", FOUR, ("duties.csv", "2026-06-05T11:00Z", "2026-06-05T01:59Z")),
    check("bad duties.csv 3 9", ONE, ("duties.csv", "T14:30Z,\n", "T14:30Z,LHR\n"
          "P1,2,2026-06-11T00:29Z,2026-06-11T06:00Z,2026-06-11T06:30Z,\n")),
    check("bad crew.csv 202 10 1", ONE, ("crew.csv", "member,low,high\n" + "".join(
        f"M{n},0:00,90:00\n" for n in range(1, 202)))),
    check("bad pairings.csv 602 10 2", ONE, ("pairings.csv", "pairing,need,credit\n" + "".join(
        f"P{n},1,5:00\n" for n in range(1, 602)))),
    check("bad duties.csv 14 10 3", ONE, ("duties.csv", "pairing,no,report,parked,release,layover\n" + "".join(
        f"P1,{n},2026-06-{n:02}T08:00Z,2026-06-{n:02}T14:00Z,2026-06-{n:02}T14:30Z,\n" for n in range(1, 14)))),
    check("bad legs.csv 10 10 4", ONE, ("legs.csv", "pairing,no,from,to,out,in\n" + "".join(
        f"P1,1,DUB,LHR,2026-06-10T{8 + n // 2:02}:{n % 2 * 30:02}Z,2026-06-10T{8 + n // 2:02}:{n % 2 * 30 + 20:02}Z\n"
        for n in range(9)))),
    check("bad pairings.csv 2 10 5", FOUR, ("pairings.csv", "LON02,1", "LON02,10")),
    check("bad crew.csv 2 10 6", FOUR, ("crew.csv", "10:00,30:00", "10:00,200:01")),
    check("bad history.csv 502 10 7", ONE, ("history.csv", HEAD + "".join(
        ground(f"2025-{7 + n // 200:02}-{n // 20 % 10 + 10:02}T{n % 20:02}:00Z",
               f"2025-{7 + n // 200:02}-{n // 20 % 10 + 10:02}T{n % 20:02}:01Z") for n in range(501)))),
    check("bad fixed.csv 62 10 8", ONE, ("fixed.csv", HEAD + "".join(
        ground(f"2026-06-{1 + n // 20:02}T{n % 20:02}:00Z", f"2026-06-{1 + n // 20:02}T{n % 20:02}:01Z") for n in range(61)))),
    check("bad pairings.csv 2 11", ONE, ("duties.csv", "pairing,no,report,parked,release,layover\n"),
          ("legs.csv", "pairing,no,from,to,out,in\n")),
    check("bad duties.csv 2 11", ONE, ("legs.csv", "pairing,no,from,to,out,in\n")),
    check("bad crew.csv 1 11", ONE, ("crew.csv", "member,low,high\n")),
]

BIDS = [
    check("bad bids.txt 1 1 1", ONE, ("bids.txt", b"\xef\xbb\xbfmember M1\n10 fly P1\n")),
    bids("bad bids.txt 1 1 2", "10 fly P1\n"),
    bids("bad bids.txt 2 7 2", "member M1\n10 fly\n"),
    bids("bad bids.txt 2 24 3", "member M1\n10 avoid report before 08:60\n"),
    bids("bad bids.txt 2 8 4", "member M1\n10 off 2026-07-01\n"),
    bids("bad bids.txt 1 8 5", "member M9\n"),
    bids("bad bids.txt 2 8 6", "member M1\n10 fly P9\n"),
    bids("bad bids.txt 2 1 7", "member M1\n1001 fly P1\n"),
    bids("bad bids.txt 66 1 8", "member M1\n" + "10 fly P1\n" * 65),
    bids("bad bids.txt 2 8 9", "member M1\nmember M1\n"),
]

CERTIFICATES = [
    check("no certificate 1 1", ONE, ("certificate.txt", "pbs-certificate 1", "pbs-certificate 4")),
    check("no certificate 4 2", ONE, ("certificate.txt", "split 1 1", "divide 1 1")),
    check("no certificate 4 3", ONE, ("certificate.txt", "split 1 1", "split 1")),
    check("no certificate 7 4", ONE, ("certificate.txt", "count 1\nend\n", "count 1\n")),
    check("no certificate 8 5", ONE, ("certificate.txt", "end\n", "end\nend\n")),
    check("no certificate 2 6", ONE, ("certificate.txt", "award 1 0", "award 201 0")),
    check("no certificate 9 3", TWO, ("certificate.txt", PRICED_TWO.replace("by 1 1", "by 1 2", 1))),
    check("no 4 2 1 9 0 0", TWO, ("certificate.txt", PRICED_TWO.replace("weights 1 1:-1", "weights 1", 1))),
    check("yes", TWO, ("certificate.txt", PRICED_TWO)),
    ("migrated 1", TWO, ["migrate"], (("certificate.txt", PRICED),)),
    ("migrated 2", TWO, ["migrate"], (("certificate.txt", PRICED_TWO),)),
]

TRADED = [
    ("trade 1 ok", TRADES, ["trade"], ()),
    ("no trades 1 1", TRADES, ["trade"], (("trades.txt", "move M1 P2 M2\r\n"),)),
    ("no trades 1 2", TRADES, ["trade"], (("trades.txt", "move M9 P2 M2\n"),)),
    ("no trades 1 3", TRADES, ["trade"], (("trades.txt", "move M1 P9 M2\n"),)),
    ("no trades 10001 4", TRADES, ["trade"], (("trades.txt", "move M1 P2 M2\n" * 10001),)),
    ("trade 1 1", TRADES, ["trade"], (("trades.txt", "swap M1 P2 M1 P2\n"),)),
    ("trade 1 2 1 1", TRADES, ["trade"], (("trades.txt", "move M1 P1 M2\n"),)),
    ("trade 1 3 2 2", TRADES, ["trade"], (("pairings.csv", "P2,1", "P2,2"), ("crew.csv", "M2,5:00,5:00", "M2,5:00,10:00"),
                                          ("roster.csv", "M2,P1,5:00", "M2,P1 P2,10:00"), ("trades.txt", "move M1 P2 M2\n"))),
    ("trade 1 4 1 8 0", TRADES, ["trade"], (("trades.txt", "move M1 P2 M2\n"),)),
]

CALENDARS = [
    ("calendar M1 1", ONE, ["calendar", "M1"], ()),
    ("no events M2", TWO, ["calendar", "M2"], ()),
    ("no member M9", ONE, ["calendar", "M9"], ()),
]

OTHER = "member M1\n10 fly P1\nmember M2\n10 daysoff 30\n"
ASKED = [
    ("whatif", TWO, ["whatif", "M2"], (("bids2.txt", OTHER),)),
    ("missing bids2.txt", TWO, ["whatif", "M2"], ()),
    ("bad bids2.txt 2 8 6", TWO, ["whatif", "M9"], (("bids2.txt", "member M1\n10 fly P9\n"),)),
    ("no member M9", TWO, ["whatif", "M9"], (("bids2.txt", OTHER), ("certificate.txt", "none\n"))),
    ("no certificate 1 1", TWO, ["whatif", "M2"], (("bids2.txt", OTHER), ("certificate.txt", "none\n"), ("roster.csv",))),
    ("no award", NONE, ["whatif", "M2"], (("bids2.txt", ""),)),
    ("missing roster.csv", TWO, ["whatif", "M2"], (("bids2.txt", ""), ("roster.csv",))),
    ("no roster 2 5", TWO, ["whatif", "M2"], (("bids2.txt", ""), ("roster.csv", "5:00,10", "5:00,11"))),
    ("no reasons 1 5", TWO, ["whatif", "M2"], (("bids2.txt", ""), ("reasons.txt", "10 fly", "20 fly"))),
    ("no 7 2 1", TWO, ["whatif", "M2"], (("bids2.txt", ""), ("reasons.txt", "place 1 M1", "place 2 M2"))),
    ("no bids M1", TWO, ["whatif", "M2"], (("bids2.txt", "member M2\n10 daysoff 30\n"),)),
    ("budget 1", TWO, ["whatif", "M2", "--nodes", "1"], (*TIGHT, *AWARDED, ("bids2.txt", WEEKS + CITIES))),
    ("write fault whatif-roster.csv", TWO, ["whatif", "M2"], (("bids2.txt", OTHER), ("whatif-roster.csv", "a folder"))),
]

ROSTERS = [
    check("no roster 1 1", ONE, ("roster.csv", "member,pairings,credit,score\n", "member,pairings,credit,score\r\n")),
    check("no roster 2 2", ONE, ("roster.csv", "M1,P1,5:00,10", "M1,P1,5:00")),
    check("no roster 2 3", ONE, ("roster.csv", "M1,P1", "M2,P1")),
    check("no roster 2 4", ONE, ("roster.csv", "M1,P1", "M1,P9")),
    check("no roster 2 5", ONE, ("roster.csv", "5:00,10", "5:00,11")),
    check("no roster 3 6", ONE, ("roster.csv", "5:00,10\n", "5:00,10\n\n")),
]

REASONS = [
    check("no reasons 1 1", TWO, ("reasons.txt", "M2 1 place 1 M1", "M2 1 place 1")),
    check("no reasons 1 2", TWO, ("reasons.txt", "M2 1", "M9 1")),
    check("no reasons 1 3", TWO, ("reasons.txt", "M2 1", "M2 2")),
    check("no reasons 1 4", TWO, ("reasons.txt", "place 1 M1", "place 1 M2")),
    check("no reasons 1 5", TWO, ("reasons.txt", "10 fly", "20 fly")),
]

LINES = [
    check("no 1 1 1 539280", ONE, ("fixed.csv", HEAD + ground("2026-06-10T12:00Z", "2026-06-10T16:00Z"))),
    check("no 1 1 2 539040", ONE, ("fixed.csv", HEAD + ground("2026-06-09T18:00Z", "2026-06-09T22:01Z"))),
    check("no 1 1 3 539040", ONE, ("fixed.csv", HEAD + ground("2026-06-02T08:00Z", "2026-06-03T08:00Z")
          + ground("2026-06-04T13:59Z", "2026-06-09T22:00Z"))),
    check("no 1 1 4 499020", ONE, ("history.csv", HEAD + flights(days("2026-05-14", 10), "07:05", "16:55", "17:00"))),
    check("no 1 1 5 536477", SIXTY),
    check("no 1 1 6 525000", ONE, ("fixed.csv", HEAD + flights(
        [day for week in (1, 8, 15, 22) for day in days(f"2026-06-{week:02}", 5)], "07:30", "08:30", "16:40")),
          ("duties.csv", "-10T", "-28T"), ("legs.csv", "-10T", "-28T")),
    check("no 1 1 7 374", ONE, ("history.csv", HEAD + flights(
        days("2025-06-11", 1) + days("2025-06-21", 199), "07:30", "12:30", "13:00"))),
    check("no 1 1 8 300", ONE, ("crew.csv", "M1,0:00", "M1,6:00")),
    check("no 1 1 9 29", ONE, ("rules.toml", "days_off = 0", "days_off = 30")),
]

ITEMS = [
    proof("no 4 1 1 1", "split 2 1", "fixed 1", "count 1"),
    proof("no 4 1 2 2", "split 1 1", "split 1 1", "fixed 1"),
    proof("no 4 1 1 3", "count 1"),
    proof("no 4 1 1 4 1", "fixed 1"),
    check("no 4 2 2 5", TWO, ("certificate.txt", "proof 5\nsplit 1 1\nsplit 2 1\ncount 1\n", "proof 5\nsplit 2 1\nfixed 2\ncount 1\n")),
    lens("no 4 1 1 6 1 1 2", "60", "0000000000000002", "0", "0"),
    lens("no 4 1 1 6 1 2 17", "60", "0000000000000000", "0", "0", *["d168:539040"] * 17),
    lens("no 4 1 1 6 1 3 1", "60", "0000000000000000", "0", "0", "d168:0"),
    lens("no 4 1 1 6 1 4", "45", "0000000000000000", "0", "0"),
    check("no 4 2 1 7 2", TWO, ("certificate.txt", "proof 5\nsplit 1 1\nsplit 2 1\ncount 1\nfixed 2\nfixed 1\nshown",
                                "proof 1\nnoline 2 60 0000000000000001 0 0\nshown")),
    proof("no 4 1 1 8 1", "weights 1 0\nlens 60 0000000000000001 0 0"),
    check("no 4 2 1 9 0 0", TWO, ("certificate.txt", PRICED.replace("weights 2 -1", "weights 2 0", 1))),
    check("no 4 2 1 10 1 1", TWO, ("certificate.txt", PRICED.replace(
        "weights 2 -1\nlens 60 0000000000000001 0 0\n", "weights 1 -1\n", 1))),
]

JUDGED = [
    check("no 2 1 0", ONE, ("roster.csv", "M1,P1,5:00,10", "M1,,0:00,0")),
    check("no 3 0", ONE, ("certificate.txt", "pbs-certificate 1\naward 0 0\nend\n")),
    check("no 5 1", ONE, ("certificate.txt", "proof 3\nsplit 1 1\nfixed 1\ncount 1\n", "proof 2\nsplit 1 1\nfixed 1\n")),
    check("no 6 2 1", TWO, ("certificate.txt", PRICED.split("shown")[0].replace("award 2 1", "award 2 0") + "end\n"),
          ("reasons.txt", "")),
    check("no 7 2 1", TWO, ("reasons.txt", "place 1 M1", "place 2 M2")),
]

def opencheck(line, *changes):
    return line, OPEN, ["opencheck", "1"], changes


# A month with as many pilots as may be, and one in which the first pilot has the name of a vacant line.
FULL = ("crew.csv", "member,low,high\n" + "".join(f"N{n},0:00,30:00\n" for n in range(200))), ("bids.txt", "")
NAMED = ("crew.csv", "Ada", "vacant-1"), ("bids.txt", "")

OPENED = [
    ("open 1", OPEN, ["open", "5"], ()),
    ("open 0", ONE, ["open", "5"], ()),
    ("no roster", OPEN, ["open", "0"], ()),
    ("no open 1 201", OPEN, ["open", "1"], FULL),
    ("no open 2 1", OPEN, ["open", "1"], NAMED),
    opencheck("yes open 1"),
    opencheck("no open 1 2 1", *NAMED),
    opencheck("no certificate 0 2", ("open-none.txt", PRICED)),
    opencheck("no open 3 5 1", ("open-none.txt", "pbs-certificate 2\nnone\nproof 0 0\nend\n")),
    opencheck("no open 4 2 1 0", ("open-roster.csv", "Ada,LON02 BOS04 BOS13 BOS26,35:00,35", "Ada,BOS04 BOS13 BOS26,30:00,35")),
]

CASES = (STATUSES + RULES + FILES + BIDS + CERTIFICATES + ROSTERS + REASONS + LINES + ITEMS + JUDGED + TRADED + CALENDARS
         + ASKED + OPENED)
