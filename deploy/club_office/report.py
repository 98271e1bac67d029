"""Makes the board's page, which compares the use of a club's courts, boats and rooms in a year with their use in the year before. The page is one
HTML file without scripts. The office makes the page from a copy of the club and from the club's files of old years."""

import collections
import contextlib
import datetime
import html
import sqlite3

from club_office.clubs import old_files
from club_office.copies import address
from club_office.texts import MONTHS, WEEKDAYS, day_text, language, say
from club_office.values import EPOCH, MOST_NUMBER

Booking = collections.namedtuple(
    "Booking", "facility day hour persons charge refund cancelled member"
)
Facility = collections.namedtuple("Facility", "kind opens shuts")
KINDS = ("court", "boat", "room")
MOST_ACTIVE = 15
# A row that `new-year` carries forward isn't a booking. Such a row has a high number, and is cancelled without a refund.
CARRIED = f"cancelled = 1 AND refund = 0 AND charge > 0 AND hour = 0 AND number > {MOST_NUMBER - 1_000_000}"


class Use:
    """The bookings and offered slots of a span of days."""

    def __init__(self, first, last):
        self.first, self.last = first, last
        self.bookings, self.facilities, self.closed = [], {}, set()

    def add(self, db, since, until):
        """Adds the bookings and offered slots of a file, for the days after `since` and up to `until`. Skips days outside the span of this object."""
        least, most = (
            number_of(max(self.first, since + datetime.timedelta(1))),
            number_of(min(self.last, until)),
        )
        # The club's current file is added first, so its facts about a facility take precedence.
        for name, *about in db.execute(
            "SELECT name, kind, opens, shuts FROM facilities ORDER BY rowid"
        ):
            self.facilities.setdefault(name, Facility(*about))
        for facility, day, *rest in db.execute(
            f"""SELECT facility, day, hour, guests + 1, charge, refund, cancelled, member FROM bookings JOIN keys ON keys.name = pass_key
                WHERE day BETWEEN ? AND ? AND NOT ({CARRIED}) ORDER BY day, hour, facility, pass_key, number""",
            [least, most],
        ):
            self.bookings.append(Booking(facility, EPOCH + datetime.timedelta(day), *rest))
        for facility, day, hour in db.execute(
            "SELECT facility, day, hour FROM slots WHERE closed = 1 AND day BETWEEN ? AND ?",
            [least, most],
        ):
            self.closed.add((facility, EPOCH + datetime.timedelta(day), hour))

    def held(self):
        return [it for it in self.bookings if not it.cancelled]

    def of_kind(self, kind):
        return {name: it for name, it in self.facilities.items() if it.kind == kind}

    def offered(self, facilities):
        """Counts the bookable slots of some facilities, by weekday and hour."""
        days = collections.Counter(
            (self.first + datetime.timedelta(it)).weekday()
            for it in range((self.last - self.first).days + 1)
        )
        found = collections.Counter()
        for it in facilities.values():
            for hour in range(it.opens, it.shuts):
                for weekday in range(7):
                    found[weekday, hour] += days[weekday]
        taken = {(it.facility, it.day, it.hour) for it in self.held()}
        for name, day, hour in self.closed - taken:
            if name in facilities and facilities[name].opens <= hour < facilities[name].shuts:
                found[day.weekday(), hour] -= 1
        return found

    def used(self, facilities):
        """Counts the booked slots of some facilities, by weekday and hour."""
        return collections.Counter(
            (day.weekday(), hour)
            for name, day, hour in {(it.facility, it.day, it.hour) for it in self.held()}
            if name in facilities
        )

    def share(self, facilities):
        """Returns the percentage of the offered slots that members used, or None if the club offered no slot."""
        offered = self.offered(facilities).total()
        return 100 * self.used(facilities).total() / offered if offered else None


def number_of(day):
    return (day - EPOCH).days


def use_of(club, db, first, last):
    """Returns the club's use in a span of days: the bookings and the offered slots. Each day is in the club's file, or in the file of an old year."""
    use, before, files = (
        Use(first, last),
        datetime.date.min,
        [(datetime.date.fromisoformat(day), path) for day, path in old_files(club.file)],
    )
    use.add(db, files[-1][0] if files else before, datetime.date.max)
    for until, path in files:
        with contextlib.closing(
            sqlite3.connect(address(path, "ro") + "&immutable=1", uri=True)
        ) as old:
            use.add(old, before, until)
        before = until
    return use


# ---- The page.

STYLE = """
:root { color-scheme: light; }
body { max-width: 62rem; margin: 1.5rem auto; padding: 0 1rem; color: #1b1f1d; font: 15px/1.45 system-ui, "DejaVu Sans", sans-serif; }
h1 { font-size: 1.7rem; margin: 0 0 .25rem; } h2 { font-size: 1.15rem; margin: 2rem 0 .5rem; }
p.note { color: #4b544f; margin: .25rem 0; }
table { border-collapse: collapse; font-variant-numeric: tabular-nums; }
th, td { padding: .2rem .55rem; text-align: right; } th:first-child, td:first-child { text-align: left; }
thead th { border-bottom: 2px solid #17573f; font-weight: 600; } tbody tr:nth-child(even) { background: #f3f6f4; }
table.heat { table-layout: fixed; width: 100%; } table.heat td { text-align: center; border: 2px solid #fff; } table.heat th { font-weight: 500; text-align: center; } table.heat th:first-child { text-align: left; }
table.heat tbody tr { background: none; } table.heat td.none { background: #fafafa; color: #8a918d; }
.bar { display: inline-block; height: .75rem; vertical-align: middle; background: #17573f; } .bar.before { background: #b4cabf; }
.bars td { text-align: left; white-space: nowrap; } .bars td.number { text-align: right; }
.key { display: inline-block; width: .8rem; height: .8rem; margin: 0 .3rem 0 1rem; vertical-align: -.05rem; }
section { break-inside: avoid; }
@media print { body { margin: 0; max-width: none; font-size: 11px; } * { print-color-adjust: exact; -webkit-print-color-adjust: exact; } }
"""


def grouped(number):
    text = f"{number:,}"
    return text.replace(",", ".") if language() == "de" else text


def percent(share):
    text = "–" if share is None else f"{share:.1f} %"
    return text.replace(".", ",") if language() == "de" else text


def row(cells, tag="td"):
    return "<tr>" + "".join(f"<{tag}>{html.escape(str(it))}</{tag}>" for it in cells) + "</tr>"


def table(heads, rows):
    return (
        f"<table><thead>{row(heads, 'th')}</thead><tbody>{''.join(map(row, rows))}</tbody></table>"
    )


def period(use):
    """Returns the name of a year for the page. If the year isn't over, the name includes the last counted day."""
    if (use.last.month, use.last.day) == (12, 31):
        return str(use.first.year)
    return say(
        "report until",
        year=use.first.year,
        day=use.last.day,
        month=MONTHS[language()][use.last.month - 1],
    )


def totals(use):
    """Returns the rows of the first table for a year, as pairs of a label and a number."""
    held = use.held()
    charged, refunded = sum(it.charge for it in use.bookings), sum(it.refund for it in use.bookings)
    numbers = [
        len(use.bookings),
        len(use.bookings) - len(held),
        len({it[:3] for it in held}),
        sum(it.persons for it in held),
        len({it.member for it in use.bookings}),
        charged,
        refunded,
        charged - refunded,
    ]
    return [*map(grouped, numbers), percent(use.share(use.facilities))]


def totals_table(use, before):
    heads = [
        say(it)
        for it in "report made|report cancelled|report slots|report persons|report active|report charged|report refunded|report kept|report share".split(
            "|"
        )
    ]
    return table(["", period(use), period(before)], zip(heads, totals(use), totals(before)))


def heat_map(use, kind):
    facilities = use.of_kind(kind)
    offered, used = use.offered(facilities), use.used(facilities)
    hours = range(
        min(it.opens for it in facilities.values()), max(it.shuts for it in facilities.values())
    )
    lines = []
    for hour in hours:
        cells = [f"<th>{hour:02d}:00</th>"]
        for weekday in range(7):
            if not offered[weekday, hour]:
                cells.append('<td class="none">·</td>')
                continue
            share = 100 * used[weekday, hour] / offered[weekday, hour]
            # Even on the cell with the darkest colour, the dark letters have a contrast of 5 to 1.
            cells.append(
                f'<td style="background:hsl(156 59% {96 - share * 0.55:.0f}%)">{share:.0f}</td>'
            )
        lines.append(f"<tr>{''.join(cells)}</tr>")
    heads = ["", *(it[:2] for it in WEEKDAYS[language()])]
    return f'<table class="heat"><thead>{row(heads, "th")}</thead><tbody>{"".join(lines)}</tbody></table>'


def by_month(use):
    found = collections.Counter()
    for it in use.bookings:
        found[it.day.month] += it.charge - it.refund
    return found


def months_table(use, before):
    now, then = by_month(use), by_month(before)
    most = max([*now.values(), *then.values(), 1])
    lines = []
    for month, name in enumerate(MONTHS[language()], 1):
        bars = "<br>".join(
            f'<span class="bar {how}" style="width:{22 * points / most:.2f}rem"></span> {grouped(points)}'
            for how, points in (("", now[month]), ("before", then[month]))
        )
        lines.append(f"<tr><td>{name}</td><td>{bars}</td></tr>")
    keys = f'<p class="note"><span class="key bar"></span>{period(use)}<span class="key bar before"></span>{period(before)}</p>'
    return f'{keys}<table class="bars"><tbody>{"".join(lines)}</tbody></table>'


def facilities_table(use, before):
    lines = []
    for name, it in sorted(
        use.facilities.items(), key=lambda pair: (KINDS.index(pair[1].kind), pair[0])
    ):
        held = {each[:3] for each in use.held() if each.facility == name}
        then = {each[:3] for each in before.held() if each.facility == name}
        money = [each for each in use.bookings if each.facility == name]
        charged, refunded = sum(each.charge for each in money), sum(each.refund for each in money)
        lines.append(
            [
                name,
                say(f"report {it.kind}"),
                grouped(len(held)),
                percent(use.share({name: it})),
                grouped(len(then)),
                grouped(charged - refunded),
                grouped(refunded),
            ]
        )
    heads = [
        "report facility",
        "report kind",
        "report slots",
        "report share",
        "report slots before",
        "report kept",
        "report refunded",
    ]
    return table([say(it) for it in heads], lines)


def members_table(use, has_names):
    """Returns the table of the members with the most bookings that took place. If the page must not show names, the table has the members' ranks
    instead."""
    count, points = collections.Counter(it.member for it in use.held()), collections.Counter()
    for it in use.bookings:
        points[it.member] += it.charge - it.refund
    first = sorted(count.items(), key=lambda pair: (-pair[1], pair[0]))[:MOST_ACTIVE]
    lines = [
        [
            name if has_names else say("report place", place=place),
            grouped(number),
            grouped(points[name]),
        ]
        for place, (name, number) in enumerate(first, 1)
    ]
    return table([say("report member"), say("report held"), say("report kept")], lines)


def page(title, use, before, today, has_names):
    sections = [(say("report totals"), totals_table(use, before))]
    for kind in KINDS:
        if use.of_kind(kind):
            share = percent(use.share(use.of_kind(kind)))
            note = f'<p class="note">{say("report heat note", share=share, before=percent(before.share(before.of_kind(kind))), period=period(before))}</p>'
            sections.append((say(f"report heat {kind}"), note + heat_map(use, kind)))
    sections += [
        (say("report months"), months_table(use, before)),
        (say("report facilities"), facilities_table(use, before)),
        (say("report members"), members_table(use, has_names)),
    ]
    body = "".join(
        f"<section><h2>{html.escape(heading)}</h2>{text}</section>" for heading, text in sections
    )
    heading = html.escape(f"{title}, {period(use)}")
    return f"""<!DOCTYPE html>
<html lang="{language()}"><head><meta charset="utf-8"><meta name="viewport" content="width=device-width, initial-scale=1">
<meta http-equiv="Content-Security-Policy" content="default-src 'none'; style-src 'unsafe-inline'">
<title>{heading}</title><style>{STYLE}</style></head>
<body><h1>{heading}</h1><p class="note">{html.escape(say("report made on", day=day_text(today)))}</p>{body}</body></html>
"""


def report_of(club, db, year, today, has_names):
    """Returns the page for a year. The page compares the year with the same days of the year before. In the current year, today is the last day."""
    last = min(datetime.date(year, 12, 31), today)
    before = datetime.date(
        year - 1, last.month, 28 if (last.month, last.day) == (2, 29) else last.day
    )
    use, then = use_of(club, db, datetime.date(year, 1, 1), last), use_of(
        club, db, datetime.date(year - 1, 1, 1), before
    )
    return page(club.title, use, then, today, has_names)
