"""The calendars of a month's members as plain values, from the month's files alone."""
import csv
import os


def rows(folder, name):
    with open(os.path.join(folder, name), newline="") as f:
        return list(csv.DictReader(f))


def compact(moment):
    """2026-06-10T08:00Z as a calendar has it."""
    return moment[:16].replace("-", "").replace(":", "") + "00Z"


def settings(folder):
    found = {}
    with open(os.path.join(folder, "rules.toml")) as f:
        for line in f:
            if "=" in line:
                key, value = line.split("=", 1)
                found[key.strip()] = value.strip().strip('"')
    return found


def calendars(folder):
    """For each member the stamp and the entries (uid, start, stop, summary, text) in order."""
    rules = settings(folder)
    month = "%04d%02d" % (int(rules["year"]), int(rules["month"]))
    duties, legs = {}, {}
    for row in rows(folder, "duties.csv"):
        duties.setdefault(row["pairing"], []).append(row)
    for row in rows(folder, "legs.csv"):
        text = "%s-%s %s-%s" % (row["from"], row["to"], row["out"][11:16], row["in"][11:16])
        legs.setdefault((row["pairing"], row["no"]), []).append(text)
    fixed = {}
    for row in rows(folder, "fixed.csv"):
        fixed.setdefault(row["member"], []).append(row)
    made = {}
    for row in rows(folder, "roster.csv"):
        member = row["member"]
        entries = []
        for name in row["pairings"].split():
            flown = duties[name]
            text = "\n".join("%s: %s" % (d["no"], ", ".join(legs.get((name, d["no"]), []))) for d in flown)
            entries.append(("p.%s.%s.%s@pbs" % (name, member, month), compact(flown[0]["report"]),
                            compact(flown[-1]["release"]), name, text))
        for k, event in enumerate(fixed.get(member, []), 1):
            entries.append(("f.%d.%s.%s@pbs" % (k, member, month), compact(event["report"]),
                            compact(event["release"]), event["kind"], "credit " + event["credit"]))
        made[member] = entries
    return made


def stamp(folder):
    """The first minute of the month at the base, in UTC."""
    import datetime
    rules = settings(folder)
    first = datetime.datetime(int(rules["year"]), int(rules["month"]), 1)
    return (first - datetime.timedelta(minutes=int(rules["offset"]))).strftime("%Y%m%dT%H%M00Z")


def marked(text):
    for mark in "\\;,":
        text = text.replace(mark, "\\" + mark)
    return text.replace("\n", "\\n")


def folded(line):
    parts, rest = [line[:75]], line[75:]
    while rest:
        parts.append(" " + rest[:74])
        rest = rest[74:]
    return "\r\n".join(parts) + "\r\n"


def text(folder, member):
    """The whole text of a member's calendar."""
    lines = ["BEGIN:VCALENDAR", "VERSION:2.0", "PRODID:-//pbs//crew calendar//EN"]
    for uid, start, stop, summary, description in calendars(folder)[member]:
        lines += ["BEGIN:VEVENT", "UID:" + marked(uid), "DTSTAMP:" + stamp(folder), "DTSTART:" + start,
                  "DTEND:" + stop, "SUMMARY:" + marked(summary), "DESCRIPTION:" + marked(description), "END:VEVENT"]
    lines.append("END:VCALENDAR")
    return "".join(folded(line) for line in lines)


if __name__ == "__main__":
    import sys
    sys.stdout.buffer.write(text(sys.argv[1], sys.argv[2]).encode())
