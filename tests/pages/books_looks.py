"""A part of page_books.py: how the page looks on phones, on the hall's screen and in other browsers."""

import base64
import json
import pathlib
import time
from collections import Counter

from booking_page import (
    BookingPage,
    DAY_THERE,
    amounts,
    curl,
    day,
    draw,
    engines,
    goes_to,
    has,
    keep,
    narrowed,
    now,
    office,
    page_date,
    run_proxy,
    slot_path,
    start_proxy,
    stop_proxy,
)
from page_browser import check


def looks_right(passes, front):
    """Takes pictures. At widths from 320 to 1,920 pixels, no view scrolls sideways. Checks the contrasts, the sizes of buttons, and the names for
    screen readers in each view, language and colour scheme."""
    texts = 0
    for language in ("en-US", "de-DE"):
        with BookingPage(front, language=language) as page:
            views = {
                "welcome": lambda: page.open(page.address),
                "day": lambda: (page.enter(passes["amy-1"]), page.go(day(2))),
                "offer": lambda: page.offer("court-1", 10),
                "booked": lambda: (
                    page.run("byName('dialog').querySelector('.main').click()"),
                    page.when("byName('dialog').querySelector('.done') !== null", "a booking"),
                ),
                "second": lambda: (page.run("closeDialog()"), page.offer("court-1", 10)),
                "bookings": lambda: (page.run("closeDialog()"), page.view("bookings")),
                "cancel": lambda: page.run(
                    "byName('to-come').querySelector('.booked button').click()"
                ),
                "find": lambda: (
                    page.run("closeDialog()"),
                    page.view("day"),
                    page.click("to-find"),
                    page.when("shownText('find-looked').includes(':')", "a week"),
                ),
                "lend": lambda: (page.click("to-find"), page.view("lend")),
                "made": lambda: (
                    page.click("lend-make"),
                    page.when("isShown('lend-made')", "a link"),
                ),
                "account": lambda: (
                    page.run("closeDialog()") if page.run("return isDialogOpen()") else None,
                    page.view("account"),
                    page.when("byName('account-facts').innerText.includes('99')", "the account"),
                ),
            }
            page.sees(360, "light", 740)
            for name, show in views.items():
                show()
                time.sleep(0.3)
                check(
                    page.run("return document.documentElement.lang") == language[:2], "the language"
                )
                page.is_audited(name, language)
                for scheme in ("light", "dark"):
                    for width in (320, 360, 768, 1280, 1920):
                        page.fits(width, scheme, 740 if width < 600 else 900, name, language)
                        if width in (360, 768, 1280):
                            whole = name in ("day", "bookings", "account", "find", "lend", "made")
                            picture = (
                                page.picture()
                                if whole
                                else page.command("Page.captureScreenshot")["data"]
                            )
                            keep(f"book-{name}-{language[:2]}-{width}-{scheme}.png", picture)
                    page.sees(360, scheme, 740)
                    time.sleep(0.25)
                    texts += page.is_legible(name, scheme)
                page.is_named(
                    ("region", "dialog", "navigation", "table"),
                    {
                        "notices",
                        "day-fault",
                        "given-fault",
                        "account-facts",
                        "lend-says",
                        "find-news",
                    },
                    name,
                )
            if language == "de-DE":
                said = page.run("return document.body.innerText")
                check("Andere Geräte" in said and "Offene Buchungen" in said, "German", said)
                page.run(
                    "byName('language').value = 'en'; byName('language').dispatchEvent(new Event('change'))"
                )
                check(
                    "Other devices" in page.run("return document.body.innerText"),
                    "another language",
                )
                page.driver.refresh()
                page.when("byName('to-day').textContent === 'Book'", "the language is kept")
            page.run(
                "for (const entry of ownEntries().filter(isLive)) state.sender.cancel(entry.key, entry.number)"
            )
            page.driver.refresh()
            page.when("isShown('day') && allAnswered()", "all bookings are cancelled")
            check(not page.complaints(), "the console says", page.complaints())
    print(
        f"{texts} texts with a contrast of at least 4.5, targets of 44 pixels, names for screen readers, no sideways scrolling from 320 to 1920 "
        "pixels, in both languages and schemes"
    )


LOGO = (
    '<svg xmlns="http://www.w3.org/2000/svg" viewBox="0 0 20 20"><circle cx="10" cy="10" r="9" fill="#c8d94a"/>'
    '<path d="M3 5a9 9 0 010 10M17 5a9 9 0 000 10" fill="none" stroke="#fff" stroke-width="1.5"/></svg>'
)


def on_three_phones(passes, front):
    """Takes a picture for README that shows a day, a booking and the list of bookings next to each other. Takes pictures of a day in three widths for
    docs/BOOKING.md."""
    good = pathlib.Path("www/club.json").read_text()
    club = {
        **json.loads(good),
        "contact": "Tel. 030 1234",
        "closures": [
            {
                "facility": "court-1",
                "day": day(27),
                "from": 13,
                "until": 15,
                "why": "Youth training",
            }
        ],
        "logo": f"data:image/svg+xml;base64,{base64.b64encode(LOGO.encode()).decode()}",
    }
    club["facilities"][0]["about"] = "Clay: flat soles, please."
    pathlib.Path("www/club.json").write_text(json.dumps(club))
    for hour in ("13", "14"):
        office("close-slot", "court-1", day(27), hour)
    with BookingPage(front) as page:
        page.sees(360, "light", 740)
        page.enter(passes["carol-1"], 27, "Not here")
        for hour, guests in [(9, 3), (12, 1), (18, 0)]:
            number = draw.randrange(1, 10**9)
            curl(
                page,
                "PUT",
                f"/slots/court-1/{day(27)}/{hour:02}/bookings/{number}",
                passes["other"],
                json.dumps({"guests": guests}),
            )
        entry = page.booked("court-1", 10, 1)
        page.run("look(); window.scrollTo(0, 0)")
        page.when(
            "dayIsThere() && cellAt('court-1', 9).button.innerText === 'Full'",
            "a day with bookings",
        )
        page.when("state.account.open === 1", "the account after the booking")
        page.run("document.activeElement.blur()")
        time.sleep(0.5)
        stripes = [page.command("Page.captureScreenshot")["data"]]
        page.offer("court-1", 11)
        page.press("One guest more")
        time.sleep(0.5)
        stripes.append(page.command("Page.captureScreenshot")["data"])
        page.press("Close")
        page.view("bookings")
        time.sleep(0.5)
        stripes.append(page.command("Page.captureScreenshot")["data"])
        page.run(
            "return state.sender.cancel(arguments[0], arguments[1])", entry["key"], entry["number"]
        )
        page.run("return state.sender.run()")
        keep("booking-page.png", page.side_by_side(stripes, 1120, 740))
        page.enter(passes["carol-1"], 27, "Not here")
        widths = []
        for width, height in [(360, 740), (768, 900), (1280, 900)]:
            page.sees(width, "light", height)
            time.sleep(0.5)
            widths.append(page.command("Page.captureScreenshot")["data"])
        keep("booking-widths.png", page.side_by_side(widths, 1283, 450))
    pathlib.Path("www/club.json").write_text(good)
    print(
        "pictures of a day, a booking and my bookings, and of a day on a telephone, a tablet and a computer"
    )


def hall_screen(passes, front, server):
    screen = narrowed(passes["hall-screen"], "actions = view")
    with BookingPage(front) as page:
        page.sees(1920, "dark", 1080)
        asked = server.asked()
        page.visit(
            f"#screen={screen}",
            "document.querySelectorAll('#screen td.free').length > 50",
            "the screen",
        )
        check(
            page.driver.current_url.endswith("/book.html#screen"),
            "the address is cleaned",
            page.driver.current_url,
        )
        page.press("Not here", "notices")
        check(
            page.run(
                "return [...document.querySelectorAll('button, input, select, textarea')].every((each) => each.offsetParent === null)"
            ),
            "no buttons",
        )
        check(
            page.run(
                "return document.documentElement.scrollHeight <= innerHeight && document.documentElement.scrollWidth <= innerWidth"
            ),
            "no scrolling",
        )
        letters = page.run(
            "return Math.min(...[...document.querySelectorAll('#screen td.free')].map((each) => parseFloat(getComputedStyle(each).fontSize)))"
        )
        check(letters >= 26, "letters that the far wall can read", letters)
        keep("screen-1920-dark.png", page.command("Page.captureScreenshot")["data"])
        first = {
            path: count - asked[method, path]
            for (method, path), count in server.asked().items()
            if count > asked[method, path]
        }
        check(set(first.values()) == {1}, "one request per slot", Counter(first.values()))
        hours = {(path.split("/")[3], int(path.split("/")[4])) for path in first}
        check(
            all(
                each_day == day(1) or (each_day == day(0) and hour > now().hour)
                for each_day, hour in hours
            ),
            "only future hours",
            hours,
        )
        number = draw.randrange(1, 10**9)
        curl(
            page,
            "PUT",
            f"/slots/room-1/{day(1)}/20/bookings/{number}",
            passes["other"],
            '{"guests":0}',
        )
        full = page.run(
            "performance.setResourceTimingBufferSize(5000); return document.querySelectorAll('#screen td.full').length"
        )
        page.when(
            f"document.querySelectorAll('#screen td.full').length === {full + 1}",
            "the screen is updated each minute",
        )
        gaps = page.run(
            """const times = new Map();
            for (const { name, startTime } of performance.getEntriesByType("resource").filter((each) => each.name.includes("/slots/"))) {
              times.set(name, [...(times.get(name) ?? []), startTime]);
            }
            return [...times.values()].filter((each) => each.length > 1).map(([first, second]) => second - first);"""
        )
        check(
            gaps and min(gaps) > 59900, "a second request within a minute", min(gaps, default=None)
        )
        curl(page, "DELETE", f"/slots/room-1/{day(1)}/20/bookings/{number}", passes["other"])
        page.visit(
            f"#screen={screen}",
            "isShown('notices') && document.querySelectorAll('#screen td.free').length > 50",
            "the screen asks",
        )
        page.press("Keep it", "notices")
        page.visit(
            "#screen",
            "document.querySelectorAll('#screen td.free').length > 50",
            "the screen keeps its pass",
        )
        check(
            page.run(
                "return [...document.querySelectorAll('button, input, select, textarea')].every((each) => each.offsetParent === null)"
            ),
            "no buttons",
        )
        check(not page.complaints(), "the console says", page.complaints())
    with BookingPage(front) as page:
        page.visit(
            "#screen", "shownText('screen').includes('needs a pass')", "a screen without a pass"
        )
    print(
        "the hall's screen: one request per slot and minute, for future hours; the screen is updated"
    )


def shows_the_club(page, passes):
    """The page shows the club's contact, imprint, privacy page and logo, and the sentences about facilities. The page treats invalid values as
    missing. If the pass has ended, the page says when it ended and whom to ask."""
    good = pathlib.Path("www/club.json").read_text()
    more = {
        "contact": "Tel. 030 1234",
        "imprint": "https://club.example/imprint",
        "privacy": "javascript:alert(1)",
        "logo": "data:image/svg+xml;base64,PHN2ZyB4bWxucz0iaHR0cDovL3d3dy53My5vcmcvMjAwMC9zdmciLz4=",
    }
    club = {**json.loads(good), **more}
    club["facilities"][0]["about"] = "Clay. Flat soles, please."
    pathlib.Path("www/club.json").write_text(json.dumps(club))
    page.enter(passes["amy-1"], 3)
    has(
        page.run("return document.querySelector('footer').innerText"),
        "the club",
        "Questions? Tel. 030 1234",
        "Imprint",
    )
    links = page.run(
        "return [...byName('club-links').querySelectorAll('a')].map((each) => [each.href, each.rel])"
    )
    check(links == [["https://club.example/imprint", "noopener noreferrer"]], "its links", links)
    check(
        page.run("return byName('club-logo').src") == more["logo"]
        and page.run("return isShown('club-logo')"),
        "its logo",
    )
    page.offer("court-1", 9)
    has(page.run("return dialogText()"), "a facility's sentence", "Clay. Flat soles, please.")
    page.press("Close")
    page.enter(narrowed(passes["amy-1"], f"until < {day(0)}T00:00"))
    has(
        page.run("return shownText('day-fault')"),
        "an ended pass",
        "This pass has ended.",
        f"Until the end of {page_date(day(-1), year=True)}.",
        "ask the office or the person who gave you this pass",
    )
    for each in club["facilities"]:
        each["about"] = "Bring your own life jacket, and shoes with light soles. " * 3
    club["facilities"][0]["about"] = "Clay. Flat soles, please."
    pathlib.Path("www/club.json").write_text(json.dumps(club))
    with BookingPage(page.front) as other:
        other.sees(1920, "light", 1080)
        other.visit(
            f"#screen={narrowed(passes['hall-screen'], 'actions = view')}",
            "document.querySelectorAll('#screen td.free').length > 50",
            "the screen",
        )
        has(
            other.run("return document.body.innerText"),
            "the club on the wall",
            "Rowing & tennis",
            "Questions? Tel. 030 1234",
            "Imprint: club.example/imprint",
            "Clay. Flat soles, please.",
        )
        check(other.run("return isShown('club-logo')"), "its logo on the wall")
        other.press("Not here", "notices")
        check(
            other.run(
                "return document.documentElement.scrollHeight <= innerHeight && document.documentElement.scrollWidth <= innerWidth"
            ),
            "no scrolling with sentences",
        )
        keep("screen-club.png", other.command("Page.captureScreenshot")["data"])
    with BookingPage(page.front) as other:
        other.open(other.address.replace("book.html", f"pass.html#{passes['amy-1']}"))
        for _ in range(100):
            if other.driver.execute_script(
                "return document.getElementById('club-contact').textContent !== ''"
            ):
                break
            time.sleep(0.1)
        has(
            other.driver.execute_script("return document.body.innerText"),
            "the club on the page that narrows",
            "Questions? Tel. 030 1234",
            "Imprint",
            "Court 1",
            "Clay. Flat soles, please.",
        )
        check(
            other.driver.execute_script("return !document.getElementById('club-logo').hidden"),
            "the logo on the page that narrows",
        )
        asked = [
            other.driver.execute_script(
                "return fetch(arguments[0], { method: arguments[1] }).then((response) => response.status, () => 'refused')",
                *words,
            )
            for words in [
                ("club.json", "GET"),
                ("account", "GET"),
                ("slots/court-1/2026-05-01/18", "GET"),
                ("book.html", "GET"),
                ("https://club.example/", "GET"),
            ]
        ]
        check(
            asked == [200, "refused", "refused", "refused", "refused"],
            "what the page that narrows can request",
            asked,
        )
    pathlib.Path("www/club.json").write_text(
        json.dumps(
            {**json.loads(good), "contact": 5, "imprint": "http://x", "logo": "https://x/y.png"}
        )
    )
    page.enter(passes["amy-1"])
    check(
        page.run("return document.querySelector('footer').innerText").count("Questions?") == 0
        and not page.run("return isShown('club-logo')"),
        "odd values count as missing",
    )
    pathlib.Path("www/club.json").write_text(good)
    print(
        "each page shows the club's contact, links, logo and sentences; under an ended pass, the page says when the pass ended"
    )


def large_letters(passes, front):
    """Checks each view with doubled letter size at a width of 360 pixels. Runs an accessibility audit of each view."""
    for language in ("en-US", "de-DE"):
        with BookingPage(front, language=language, letters=32) as page:
            page.sees(360, "light", 740)
            for name, show in {
                "welcome": lambda: page.open(page.address),
                "day": lambda: page.enter(passes["amy-1"], 2),
                "offer": lambda: page.offer("court-1", 10),
                "find": lambda: (
                    page.run("closeDialog()"),
                    page.click("to-find"),
                    page.when("shownText('find-looked').includes(':')", "a week"),
                ),
                "bookings": lambda: (page.click("to-find"), page.view("bookings")),
                "lend": lambda: page.view("lend"),
                "made": lambda: (
                    page.click("lend-make"),
                    page.when("isShown('lend-made')", "a link"),
                ),
                "account": lambda: page.view("account"),
            }.items():
                show()
                time.sleep(0.4)
                page.cuts_nothing_off(360, name, language)
                wide = page.run(TOO_WIDE)
                check(not wide, "slots that are wider than their cells", name, language, wide)
                page.breaks_no_word(name, language)
                page.is_audited(name, language)
                keep(
                    f"large-{name}-{language[:2]}.png",
                    page.command("Page.captureScreenshot")["data"],
                )
    print(
        "with doubled letter size at 360 pixels, nothing is cut off and no word is broken; an audit finds nothing"
    )


# Finds elements that are too wide. Only the table of the search for a free time may scroll sideways.
TOO_WIDE = """
return [...document.querySelectorAll("button.slot, .slot span, .slot small")].filter((each) => each.offsetParent !== null
  && (each.scrollWidth > each.clientWidth + 1 && each.tagName === "BUTTON" || each.getBoundingClientRect().right > each.closest(".slot").getBoundingClientRect().right + 1
    || each.getBoundingClientRect().right > innerWidth && each.closest("#find-grid") === null)).map((each) => each.outerHTML.slice(0, 100));
"""


def other_engines(passes, server):
    """Runs the main tasks in Firefox and WebKitGTK."""
    for place, engine in engines():
        front, key, wanted = start_proxy(server.port), f"engine-{place}", day(50)
        address = f"https://{engine.host}:{front}/book.html"
        engine.open(f"{address}#{passes[key]}")
        engine.when(f"{DAY_THERE} && shown('notices').includes('Keep the pass')", "the day")
        check("#" not in engine.run("return location.href"), engine.name, "the address is cleaned")
        engine.press("Keep it", "notices")
        goes_to(engine, wanted)
        engine.tap(slot_path("Court 1", 10))
        engine.press("One guest more", "dialog")
        engine.press("Book for 400 points", "dialog")
        engine.when("shown('dialog').includes('Booked.')", "a booking")
        engine.press("Close", "dialog")
        keep(f"{engine.name}-day.png", base64.b64encode(engine.picture()))
        check(
            [rest[:4] for rest in amounts(key).values()] == [("court-1", wanted, 10, 1)],
            engine.name,
            "the file",
            amounts(key),
        )
        others = engine.run(
            "return performance.getEntriesByType('resource').map((each) => each.name).filter((each) => !each.startsWith(location.origin) && !each.startsWith('data:'))"
        )
        check(not others, engine.name, "the page requests", others)
        # The member searches a week for a free boat.
        engine.tap("//button[@id='to-find']")
        engine.when("shown('find-looked').includes(':')", "a week")
        engine.press("Boats", "find-kinds")
        engine.tap("//button[@id='find-next']")
        engine.when("shown('find-news').startsWith('Free: Double scull')", "the next free time")
        engine.tap("//button[@id='to-find']")
        # The member stores a spare pass, and lends a part of it.
        engine.open(f"{address}#spare={passes[f'engine-lend-{place}']}")
        engine.when(f"shown('dialog').includes('engine-lend-{place}')", "a spare pass")
        engine.press("Keep it", "dialog")
        engine.when("shown('dialog').includes('The spare passes are kept.')", "a kept spare pass")
        engine.press("Close", "dialog")
        engine.tap("//button[@id='to-lend']")
        check(
            engine.get("return shown('lend-which')") == "",
            engine.name,
            "a spare pass is available",
            engine.get("return shown('lend-which')"),
        )
        engine.tap("//button[@id='lend-make']")
        engine.when("document.getElementById('lend-made').offsetParent !== null", "a link")
        lent = engine.run("return document.getElementById('lend-address').value")
        check(
            lent.startswith(f"{address}#") and engine.code("lend-qr") == lent,
            engine.name,
            "a lent part, and its code",
            lent,
            engine.code("lend-qr"),
        )
        # The member visits the page again without a network.
        engine.tap("//button[@id='to-account']")
        engine.when(
            "shown('at-hand').includes('also opens without a network') && shown('account-facts').includes('of 99')",
            "a worker, and the account",
        )
        stop_proxy(front)
        engine.open(address)
        engine.tap("//button[@id='to-bookings']")
        engine.when("shown('to-come').includes('Court 1')", "the list, without a network")
        run_proxy(front)
        engine.open(address)
        engine.when(f"{DAY_THERE}", "another visit")
        engine.tap("//button[@id='to-bookings']")
        engine.press_in_card("Cancel")
        engine.press("Cancel the booking", "dialog")
        engine.when("shown('dialog').includes('400 points came back')", "a cancellation")
        keep(f"{engine.name}-cancelled.png", base64.b64encode(engine.picture()))
        engine.press("Close", "dialog")
        # The holder of the loan also has another pass in the same browser.
        engine.open(lent)
        engine.when(f"{DAY_THERE} && shown('pass-says').includes('0 of 600 points')", "the loan")
        engine.press("Keep it", "notices")
        engine.when(
            "document.getElementById('who').options.length === 2", "two passes to choose from"
        )
        goes_to(engine, day(51))
        check(
            engine.run(
                "return [...document.querySelectorAll('#facility-choice button')].every((each) => each.textContent.startsWith('Court'))"
            ),
            engine.name,
            "only courts",
        )
        engine.run(
            "const who = document.getElementById('who'); who.value = arguments[0]; who.dispatchEvent(new Event('change'))",
            passes[key],
        )
        engine.when(
            "document.querySelectorAll('#facility-choice button').length === 6",
            "her own pass again",
        )
        # The member uses a pass that only allows viewing, and then a pass that has ended.
        engine.open(f"{address}#{narrowed(passes[key], 'actions = view')}")
        engine.when(
            f"{DAY_THERE} && [...document.querySelectorAll('#slots button')].every((each) => each.disabled)",
            "a pass for viewing",
        )
        engine.open(f"{address}#{narrowed(passes[key], f'until < {day(0)}T00:00')}")
        engine.when("shown('day-fault').includes('This pass has ended.')", "an ended pass")
        engine.run(
            "document.getElementById('language').value = 'de'; document.getElementById('language').dispatchEvent(new Event('change'))"
        )
        engine.when("shown('day-fault').includes('Dieser Pass ist abgelaufen.')", "German")
        print(
            f"{engine.name} {engine.version} looks, books, finds, lends, keeps two passes, opens without a network, and cancels"
        )
