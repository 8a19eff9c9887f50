"""A month in which an award wants splits: two pilots with 20 hours of credit each, and four trips of two days."""
import months

TRIPS = [(3, "ORD"), (6, "DEN"), (13, "ORD"), (16, "DEN")]
BIDS = """member M1
10 off 2026-06-03 to 2026-06-07
10 off 2026-06-13 to 2026-06-17
member M2
10 avoid layover ORD
10 avoid layover DEN
"""


def write(folder):
    pairings, duties = "pairing,need,credit\n", "pairing,no,report,parked,release,layover\n"
    legs = "pairing,no,from,to,out,in\n"
    for number, (first, station) in enumerate(TRIPS, 1):
        day, next_day = f"2026-06-{first:02}", f"2026-06-{first + 1:02}"
        pairings += f"P{number},1,10:00\n"
        duties += f"P{number},1,{day}T08:00Z,{day}T14:00Z,{day}T14:30Z,{station}\n"
        duties += f"P{number},2,{next_day}T10:00Z,{next_day}T16:00Z,{next_day}T16:30Z,\n"
        legs += f"P{number},1,DUB,{station},{day}T09:00Z,{day}T13:00Z\n"
        legs += f"P{number},2,{station},DUB,{next_day}T11:00Z,{next_day}T15:00Z\n"
    files = {"pairings.csv": pairings, "duties.csv": duties, "legs.csv": legs, "bids.txt": BIDS}
    months.write(folder, files | {"crew.csv": months.crew(2, "20:00", "20:00")})
