"""A part of page_books.py: lending a part of a pass by a link or a QR code, and the trial club."""

import base64
import json
import pathlib
import re
import shutil
import time
from datetime import datetime, timedelta

from booking_page import (
    BookingPage,
    DAY_THERE,
    HELPERS,
    TOP,
    amounts,
    curl,
    day,
    draw,
    goes_to,
    has,
    keep,
    page_date,
    printed,
    slot_path,
    start_proxy,
)
from page_browser import Browser, check, policy_holds


def lends(passes, front, between):
    """A member lends a part of a spare pass, because the desk counts a spare pass's points separately. Without a spare pass, she lends a part of her own
    pass. The receiver books within the loan's limits, but can't cancel the member's bookings or see her account.
    """

    def choose(page, group, value):
        page.run(
            "const it = [...byName(arguments[0]).querySelectorAll('input')].find((each) => each.value === arguments[1]);"
            "it.checked = true; it.dispatchEvent(new Event('input', { bubbles: true }));",
            group,
            value,
        )

    def made(page, says, what="kind court", last=day(4), points="600", how="book", later=False):
        page.view("lend")
        page.run("byName('lend-later').checked = arguments[0]", later)
        page.run("byName('lend-name').value = 'Max'")
        for group, value in [
            ("lend-what", what),
            ("lend-how", how),
            ("lend-until", last),
            ("lend-points", points),
        ]:
            choose(page, group, value)
        check(
            page.run("return shownText('lend-says')") == says,
            "the loan in a sentence",
            page.run("return shownText('lend-says')"),
            says,
        )
        page.run("byName('lend-made').hidden = true")
        page.click("lend-make")
        page.when("isShown('lend-made')", "a link", page.run("return shownText('lend-news')"))
        check(
            page.run("return shownText('lend-made-says')") == says,
            "the same sentence next to the link",
        )
        return page.run("return byName('lend-address').value")

    def lines_in(page, address):
        return page.run(
            "const pass = readPass(splitGiven(arguments[0]).text); return [keyName(pass), ...pass.caveats.map(characters)]",
            address.split("#")[1],
        )

    friday = page_date(day(4))
    says = f"Max may book courts until the end of {friday}, up to 600 points."
    with BookingPage(front) as page:
        page.sees(360, "light", 740)
        page.enter(passes["amy-1"], keeps="Keep it")
        page.view("lend")
        has(
            page.run("return shownText('lend-which')"),
            "without a spare pass",
            "This browser keeps no spare pass.",
            "anyone with the link can cancel your bookings",
        )
        page.visit(
            f"#spare={passes['amy-lend-1']};{passes['amy-lend-2']}",
            "dialogText().includes('amy-lend-1, amy-lend-2')",
            "spare passes in a link",
        )
        check(page.run("return localStorage.spares") is None, "nothing is kept before the press")
        page.press("Keep it")
        page.press("Close")
        check(
            json.loads(page.run("return localStorage.spares"))
            == [passes["amy-lend-1"], passes["amy-lend-2"]],
            "the spare passes",
        )
        page.view("lend")
        check(page.run("return shownText('lend-which')") == "", "with a spare pass")
        says = (
            f"Max may book courts until the end of {friday}, also for later days, up to 600 points."
        )
        address = made(page, says, later=True)
        wanted = [
            "amy-lend-1",
            "kind = court",
            "actions = view,book,cancel",
            f"until < {day(5)}T00:00",
            "spend <= 600",
        ]
        check(
            address.startswith(f"{page.address}#") and lines_in(page, address) == wanted,
            "the lent pass",
            lines_in(page, address),
        )
        page.run("byName('lend-qr').scrollIntoView()")
        box = page.run(
            "const { left, top, width, height } = byName('lend-qr').querySelector('svg').getBoundingClientRect(); return [left + scrollX, top + scrollY, width, height]"
        )
        clip = dict(zip(["x", "y", "width", "height"], box), scale=2)
        pathlib.Path("qr.png").write_bytes(
            base64.b64decode(
                page.command("Page.captureScreenshot", captureBeyondViewport=True, clip=clip)[
                    "data"
                ]
            )
        )
        check(printed("zbarimg", "-q", "--raw", "qr.png").strip() == address, "its QR code")
        page.run(
            "Object.defineProperty(navigator, 'share', { value: async (it) => { globalThis.sharedIt = it; } })"
        )
        page.run("byName('lend-share').hidden = false; byName('lend-share').click()")
        page.when("shownText('lend-made-news') === 'The link is sent.'", "a shared link")
        check(
            page.run("return sharedIt")
            == {"title": "Rowing & tennis", "text": says, "url": address},
            "the shared loan",
            page.run("return sharedIt"),
        )
        second = made(
            page,
            f"Max may look at everything until the end of {page_date(day(0))}, but may not book.",
            "all",
            day(0),
            how="look",
        )
        check(
            lines_in(page, second) == ["amy-1", "actions = view", f"until < {day(1)}T00:00"],
            "a loan for viewing uses no spare pass",
            lines_in(page, second),
        )
        page.run("byName('lend-facility').value = 'boat-1'")
        third = made(
            page, f"Max may book Double scull until the end of {friday}.", "one", points="none"
        )
        check(
            lines_in(page, third)
            == [
                "amy-lend-2",
                "facility = boat-1",
                "actions = view,book,cancel",
                f"days = {day(0)}..{day(4)}",
                f"until < {day(5)}T00:00",
            ],
            "the second spare pass, until Friday",
            lines_in(page, third),
        )
        has(
            page.run("return byName('lend-which').innerText"),
            "no third",
            "All your spare passes are lent.",
        )
        own = page.booked_at(4, "court-2", 20)
        for given, words in (
            ("", "1 to 999999"),
            ("0", "1 to 999999"),
            ("1e3", "1 to 999999"),
            ("-5", "1 to 999999"),
            ("5000000", "1 to 999999"),
        ):
            page.view("lend")
            choose(page, "lend-points", "other")
            page.run(
                "byName('lend-count').value = arguments[0]; byName('lend-made').hidden = true",
                given,
            )
            page.click("lend-make")
            check(
                words in page.run("return shownText('lend-news')")
                and not page.run("return isShown('lend-made')"),
                "an odd number of points",
                given,
            )
        between.fates["GET"] = ["silent"] * 50
        choose(page, "lend-points", "600")
        page.click("lend-make")
        page.when(
            "shownText('lend-news').includes(\"isn't available just now (502)\")",
            "a desk that is down",
            limit=60,
        )
        between.fates.clear()
    with BookingPage(front) as page:
        page.sees(360, "light", 740)
        page.visit(
            address[len(page.address) :], "isShown('day') && dayIsThere()", "the holder's page"
        )
        has(
            page.run("return shownText('pass-says')"),
            "what the pass allows",
            "Only courts.",
            f"Until the end of {page_date(day(4), year=True)}.",
            "0 of 600 points spent in this browser.",
        )
        check(
            page.run("return [...cells.keys()].every((name) => name.startsWith('court-'))"),
            "only courts",
        )
        page.press("Keep it", "notices")
        page.go(day(6))
        page.offer("court-1", 10)
        has(
            page.run("return dialogText()"),
            "a slot after the pass's end",
            "Your pass ends before this slot",
            "you can't cancel the booking",
            f"Until the end of {page_date(day(4), year=True)}.",
        )
        page.press("Close")
        page.go(day(2))
        page.offer("court-1", 10)
        check(
            "Your pass ends" not in page.run("return dialogText()"), "a slot before the pass's end"
        )
        for _ in range(2):
            page.press("One guest more")
        check(
            page.run("return byName('dialog').querySelectorAll('.step-button')[1].disabled"),
            "no more guests than its points allow",
        )
        page.press("One guest fewer")
        page.press("Book for 400 points")
        page.comes("Booked.", "the holder's booking")
        page.when(
            "shownText('pass-says').includes('400 of 600 points spent in this browser.')",
            "the points left",
            page.run("return shownText('pass-says')"),
        )
        page.when(
            "cellAt('court-3', 10).button.disabled && cellAt('court-3', 10).button.textContent.includes('Too many points for your pass')",
            "300 points are too many",
        )
        page.booked("court-1", 11)
        page.when(
            "[...cells.values()].every((cell) => cell.button.disabled || cell.button.className.includes('mine'))",
            "no button that the desk would refuse",
        )
        page.offer("court-1", 11)
        check(
            "Book a second time" not in page.run("return dialogText()"),
            "no second booking in the dialog",
            page.run("return dialogText()"),
        )
        page.press("Back")
        reply = curl(
            page,
            "DELETE",
            f"/slots/court-2/{day(4)}/20/bookings/{own['number']}",
            address.split("#")[1],
        )
        check(
            reply == '{"fault":15,"text":"no such booking"} 404',
            "the holder can't cancel the member's booking",
            reply,
        )
        page.view("account")
        page.when(
            "byName('account-facts').innerText.includes(\"doesn't show the account\")",
            "the holder can't see her account",
        )
        page.cancelled_in_the_list("the holder cancels a booking of their own")
        page.when("!shownText('pass-says').includes('600 of 600')", "points that came back")
        for each in [each for each in page.entries() if "cancel" not in each]:
            page.cancelled(each["number"], "a cancellation of the other booking")
    with BookingPage(
        front
    ) as page:  # the limit of a second loan includes the points that the spare pass has already spent
        page.enter(passes["amy-1"], keeps="Keep it")
        page.visit(
            f"#spare={passes['amy-lend-1']}", "dialogText().includes('amy-lend-1')", "a spare pass"
        )
        page.press("Keep it")
        page.press("Close")
        number = draw.randrange(1, 10**9)
        curl(
            page,
            "PUT",
            f"/slots/court-1/{day(3)}/12/bookings/{number}",
            passes["amy-lend-1"],
            '{"guests":0}',
        )
        again = made(page, f"Max may book courts until the end of {friday}, up to 600 points.")
        check(
            lines_in(page, again)[-1] == "spend <= 800" and again.endswith(";spent=200"),
            "a second loan",
            again,
        )
        page.visit(
            again[len(page.address) :], "isShown('day') && dayIsThere()", "the second holder"
        )
        has(
            page.run("return shownText('pass-says')"),
            "its points",
            "0 of 600 points spent in this browser.",
        )
        curl(page, "DELETE", f"/slots/court-1/{day(3)}/12/bookings/{number}", passes["amy-lend-1"])
        page.enter(passes["amy-1"])
        page.cancelled_at(own, "court-2")
        for length, words in (
            (20, "scan this code"),
            (900, "The code is dense"),
            (3000, "too long for a QR code"),
        ):
            page.run("byName('to-lend').click(); showMade('A'.repeat(arguments[0]), 'x')", length)
            check(
                words in page.run("return shownText('lend-qr-words')"),
                "a QR code of a long link",
                length,
                page.run("return shownText('lend-qr-words')"),
            )
        page.visit(
            "#spare=AgEJ;x",
            'dialogText().includes("isn\'t complete")',
            "an incomplete link of spare passes",
        )
    print(
        "a member lends a part of a spare pass by a link and a QR code; the holder books within the loan, and sees no button that the loan refuses"
    )


def tries_the_club(address):
    """Opens the trial club from a file in each browser. The member changes a booking, repeats it, and invites somebody to it. Then the member lends a
    part of a pass by a QR code."""
    import page_engines

    for engine_of in (page_engines.Chromium, page_engines.Firefox, page_engines.WebKit):
        with engine_of() as engine:
            engine.helpers = "const shown = (id) => document.getElementById(id).innerText.trim();"
            engine.open(address)
            engine.when(DAY_THERE, "the day")
            engine.when(
                "shown('club-contact').includes('Mondays') && !document.getElementById('club-logo').hidden",
                "the club",
            )
            today = engine.run("return document.getElementById('day-field').value")
            ahead = [
                (datetime.strptime(today, "%Y-%m-%d") + timedelta(count)).strftime("%Y-%m-%d")
                for count in range(28)
            ]

            def books(hour, wanted=ahead[20]):
                engine.tap("//button[@id='to-day']")
                goes_to(engine, wanted)
                engine.tap(slot_path("Court 1", hour))
                engine.press("Book for 200 points", "dialog")
                engine.when("shown('dialog').includes('Booked.')", "a booking", hour)
                engine.press("Close", "dialog")

            def of_the_card(words):
                engine.tap("//button[@id='to-bookings']")
                engine.run("document.querySelector('#to-come details.more').open = true")
                engine.press_in_card(words)

            books(9)
            engine.when(
                f"document.evaluate(\"{slot_path('Court 1', 9)}\", document).iterateNext().className.includes('mine')",
                "her own place in the day",
            )
            of_the_card("Change")
            engine.run("document.getElementById('change-hour').value = '10'")
            engine.press("Look up", "dialog")
            engine.when(
                "shown('dialog').includes('If the cancellation fails')",
                "what happens if one of the two requests fails",
            )
            engine.press("Book the new slot for 200 points, and cancel the old booking", "dialog")
            engine.when("shown('dialog').includes('Changed. 200 points came back')", "a change")
            engine.press("Close", "dialog")
            books(8, ahead[19])
            of_the_card("Book again next week")
            engine.when("shown('dialog').includes('4 places are free')", "a week later")
            engine.press("Book for 200 points", "dialog")
            engine.when("shown('dialog').includes('Booked.')", "the same a week later")
            engine.press("Close", "dialog")
            of_the_card("Invite")
            engine.when("/(copied|sent|Will you come)/.test(shown('dialog'))", "an invitation")
            engine.press("Close", "dialog")
            of_the_card("Add to the calendar")
            engine.when(
                "shown('list-remind').includes(\"3 bookings are saved only\") && shown('list-says') === ''",
                "a reminder, and a complete list",
            )
            engine.open(
                f"{address}#record=anna-1;77+court-2+{ahead[21]}+09+guests+0+charge+200+left+3"
            )
            engine.when("shown('dialog').includes('1 booking of anna-1')", "a list by a link")
            engine.press("Add to this browser", "dialog")
            engine.tap("//button[@id='to-bookings']")
            engine.when(
                "shown('list-says').includes('This pass spent 200 points less') && shown('to-come').includes('Perhaps this slot')",
                "a booking that was cancelled elsewhere",
            )
            engine.tap("//button[@id='to-lend']")
            engine.tap("//input[@name='lend-points'][@value='200']/..")
            engine.tap("//input[@id='lend-later']")
            engine.tap("//button[@id='lend-make']")
            engine.when("document.getElementById('lend-made').offsetParent !== null", "a link")
            lent = engine.run("return document.getElementById('lend-address').value")
            check(engine.code("lend-qr") == lent, engine.name, "its QR code", lent)
            engine.open(lent)
            engine.when(
                f"{DAY_THERE} && shown('pass-says').includes('0 of 200 points spent in this browser.')",
                "the holder's page",
            )
            goes_to(engine, ahead[20])
            engine.tap(slot_path("Court 1", 12))
            engine.when(
                "shown('dialog').includes(\"Your pass ends before this slot. When the pass has ended, you can't cancel the booking.\")",
                "a slot after the pass's end",
            )
            engine.press("Book for 200 points", "dialog")
            engine.when("shown('dialog').includes('Booked.')", "the holder's booking")
            engine.press("Close", "dialog")
            engine.when(
                "[...document.querySelectorAll('#slots button:not(:disabled)')].every((each) => each.className.includes('mine'))",
                "no button that the pass refuses",
            )
            keep(f"{engine.name}-holder.png", base64.b64encode(engine.picture()))
            print(
                f"{engine.name} {engine.version} tries the trial club from a folder: changes, repeats and shares a booking, compares and adds a list, lends, and books under the loan"
            )


# Returns the key and the caveats of the lent pass, the page's sentence about the loan, and the number of loans that the page knows.
MADE = """
const { text } = splitGiven(byName("lend-address").value.split("#")[1]);
const pass = readPass(text);
return [keyName(pass), pass.caveats.map(characters), byName("lend-made-says").textContent, keptLoans().length];
"""


def made(page):
    """Presses the button for lending twice. Returns the loan, or the page's message."""
    page.run(
        "byName('lend-made').hidden = true; byName('lend-make').click(); byName('lend-make').click()"
    )
    page.driver.execute_async_script(HELPERS + "settled(() => !isMaking).then(arguments[0])")
    return (
        page.run(MADE)
        if page.run("return isShown('lend-made')")
        else page.run("return shownText('lend-news')")
    )


def opens_lend(page, address):
    page.open(address)
    page.driver.execute_async_script(
        HELPERS
        + "settled(() => state.account !== null && dayIsThere() || denial('account') > 0).then(arguments[0])"
    )
    page.run("byName('to-lend').click()")
    time.sleep(0.5)


def text_of(page, script):
    return page.driver.execute_async_script(
        "const done = arguments[0]; (async () => { " + script + " })().then(done);"
    )


def lends_what_the_pass_opens(address):
    """Lends a part of a pass in the trial club. A loan uses a spare pass that belongs to the same member and that the desk accepts. If the desk
    accepts no spare pass, the page tells the member so before it makes a loan. Under a pass with limits, the page offers only what the pass allows. A
    second press makes no second loan. Without the club's list, the page still offers to cancel a booking and to invite somebody.
    """

    def opens(page, end=""):
        opens_lend(page, address + end)

    with Browser() as page:
        page.helpers = HELPERS
        opens(page)
        key, _, says, count = made(page)
        check(
            key == "anna-lend-1" and "limits of your own pass" not in says and count == 1,
            "one loan after two presses",
            key,
            says,
            count,
        )
        # Stores a spare pass that the office has replaced, and a spare pass of another member.
        renewed = text_of(
            page,
            "return writePass({ ...readPass(await passToTry('anna-lend-1')), signature: new Uint8Array(32) })",
        )
        theirs = text_of(page, "return passToTry('others')")
        for spares, wanted in [
            ([renewed, theirs], None),
            ([renewed], None),
            ([renewed, theirs, text_of(page, "return passToTry('anna-lend-2')")], "anna-lend-2"),
        ]:
            page.run(
                "localStorage.removeItem('demo loans'); localStorage['demo spares'] = JSON.stringify(arguments[0])",
                spares,
            )
            opens(page)
            which = page.run("return shownText('lend-which')")
            check(
                (wanted is None)
                == (
                    "None of your spare passes can be used." in which
                    and "can cancel your bookings" in which
                ),
                "which spare pass is used",
                wanted,
                which,
            )
            check(made(page)[0] == (wanted or "anna-1"), "the lent pass", wanted)
        # Stores the spare pass that the office has replaced. This time, the page learns of the desk's refusal only after the member presses the
        # button.
        page.run(
            "localStorage.removeItem('demo loans'); localStorage['demo spares'] = JSON.stringify([arguments[0]])",
            renewed,
        )
        opens(page)
        page.run("unfit.clear(); showChosen()")
        check(page.run("return shownText('lend-which')") == "", "no note yet")
        check(
            "The link isn't made yet" in made(page) and page.run("return keptLoans().length") == 0,
            "no loan of her own pass before she is told",
        )
        check(
            "None of your spare passes" in page.run("return shownText('lend-which')")
            and made(page)[0] == "anna-1",
            "a loan of her own pass",
        )
        # The member's own pass has limits.
        last = page.run("return daysLater(clubMoment().slice(0, 10), 1)")
        for lines, how, points in [
            (["actions = view"], ["look"], None),
            (
                [
                    "kind = court",
                    "actions = view,book,cancel",
                    f"until < {last}T00:00",
                    "spend <= 200",
                ],
                ["book", "look"],
                ["200", "other", "none"],
            ),
        ]:
            given = text_of(
                page,
                f"return writePass(await narrowed(readPass(await passToTry('anna-1')), {json.dumps(lines)}))",
            )
            page.run("localStorage.removeItem('demo loans')")
            opens(page, f"#{given}")
            values = page.run(
                "return ['lend-how', 'lend-until', 'lend-points'].map((id) => [...byName(id).querySelectorAll('input')].map((each) => each.value))"
            )
            check(
                values[0] == how
                and (points is None or len(values[1]) == 2 and values[2] == points),
                "the offered choices",
                lines,
                values,
            )
            key, found, says, _ = made(page)
            check(
                key == "anna-1"
                and found[: len(lines)] == lines
                and says.endswith("The limits of your own pass apply too."),
                "a part of that pass",
                key,
                found,
                says,
            )
        # Shows the week under three passes: a pass that only allows viewing, a pass with too few points, and a pass with enough points. Then shows a day
        # that a pass's limits exclude.
        for line, words, count in (
            ("actions = view", "Free: Court", 0),
            ("spend <= 100", "Too many points for your pass", 0),
            ("spend <= 300", "Free: Court", 14),
        ):
            opens(
                page,
                "#"
                + text_of(
                    page,
                    f"return writePass(await narrowed(readPass(await passToTry('anna-1')), ['kind = court', '{line}']))",
                ),
            )
            page.run(
                "byName('to-day').click(); byName('to-find').click(); changeSearch({ kind: 'court', from: 19, to: 21 }); showFind(daysLater(clubMoment().slice(0, 10), 11))"
            )
            time.sleep(1)
            found = page.run(
                "return [...byName('find-grid').querySelectorAll('button')].map((each) => [each.textContent, each.disabled])"
            )
            seen = "Too many points for your pass" if count == 0 and "spend" in line else "3 free"
            check(
                {each for each, _ in found} == {seen}
                and sum(not away for _, away in found) == count,
                "the week of a pass",
                line,
                found,
            )
            page.click("find-next")
            page.driver.execute_async_script(
                HELPERS
                + "settled(() => /^(Free|Nothing|Too)/.test(shownText('find-news')), 60000).then(arguments[0])"
            )
            check(
                page.run("return shownText('find-news')").startswith(words),
                "the next free time of a pass",
                line,
                page.run("return shownText('find-news')"),
            )
        weekday = page.run("return WEEKDAYS[(weekdayOf(clubMoment().slice(0, 10)) + 1) % 7]")
        opens(
            page,
            "#"
            + text_of(
                page,
                f"return writePass(await narrowed(readPass(await passToTry('anna-1')), ['hours = 18-20', 'weekday = {weekday}']))",
            ),
        )
        page.run("byName('to-day').click()")
        check(
            "Only on " in page.run("return shownText('day-fault')")
            and "Only slots" not in page.run("return shownText('day-fault')"),
            "why a day is left out",
            page.run("return shownText('day-fault')"),
        )
        # The page has no club's list.
        opens(page)
        page.run("byName('to-day').click(); showDay(daysLater(clubMoment().slice(0, 10), 20))")
        time.sleep(1)
        page.run(
            "cellAt('court-1', 20).button.click(); byName('dialog').querySelector('.main').click()"
        )
        time.sleep(1)
        page.run("pressIn(byName('dialog'), 'Close'); byName('to-bookings').click()")
        buttons = "return [...byName('to-come').querySelectorAll('button')].map((each) => each.textContent)"
        check(
            page.run(buttons)
            == ["Cancel", "Add to the calendar", "Invite", "Book again next week", "Change"],
            "a booking",
            page.run(buttons),
        )
        page.run("state.club = null; byName('to-bookings').click()")
        check(
            page.run(buttons) == ["Cancel", "Invite"],
            "a booking without the club's list",
            page.run(buttons),
        )
        check(not page.driver.get_log("browser"), "the console", page.driver.get_log("browser"))
    print(
        "a loan uses a spare pass that the desk accepts, offers no more than the pass allows, and is made once"
    )


# The browser's storage is full.
FULL = (
    "Storage.prototype.setItem = () => { throw new DOMException('full', 'QuotaExceededError'); };"
)


def says_what_it_keeps(address):
    """If the browser's storage is full, the page knows a loan until the member leaves the page. If a lent pass allows its holder to see the account,
    the page shows the points that the desk counts. If a pass has ended, the search says so."""
    with Browser() as page:
        page.helpers = HELPERS
        opens_lend(page, address)
        page.run(FULL)
        for key, words in [
            ("anna-lend-1", "may lend it again"),
            ("anna-lend-2", "may lend it again"),
            ("anna-1", "until you reload or close the page."),
        ]:
            found = made(page)
            check(
                found[0] == key
                and page.run("return shownText('lend-news')").endswith(words) == (key == "anna-1"),
                "no spare pass twice",
                key,
                found,
            )
            check(
                words in page.run("return shownText('lend-news')"),
                "the note that the loan isn't kept",
                key,
                page.run("return shownText('lend-news')"),
            )
        check(
            page.run("return byName('loans').children.length") == 3,
            "three loans are listed",
            page.run("return shownText('loans')"),
        )
        opens_lend(page, address)
        check(
            made(page)[0] == "anna-lend-1"
            and page.run("return byName('loans').children.length") == 1,
            "after a reload, as the note says",
        )
        # If the pass allows viewing the account, the page shows the points that the desk counts. Otherwise, it shows the points spent in this
        # browser.
        page.run("byName('to-day').click(); showDay(daysLater(clubMoment().slice(0, 10), 20))")
        time.sleep(1)
        page.run(
            "cellAt('court-1', 20).button.click(); byName('dialog').querySelector('.main').click()"
        )
        time.sleep(1)
        page.driver.execute_async_script(
            "const [done] = arguments; Promise.all(state.entries.map((each) => state.store.remove(each.key, each.number))).then(() => done())"
        )
        for lines, words in [
            (["spend <= 600"], "200 of 600 points spent, according to the desk."),
            (
                ["actions = view,book,cancel", "spend <= 600"],
                "0 of 600 points spent in this browser.",
            ),
        ]:
            opens_lend(
                page,
                f"{address}#"
                + text_of(
                    page,
                    f"return writePass(await narrowed(readPass(await passToTry('anna-1')), {json.dumps(lines)}))",
                ),
            )
            check(
                page.run("return shownText('pass-says')") == words,
                "the note about the spent points",
                lines,
                page.run("return shownText('pass-says')"),
            )
        # The pass has ended.
        opens_lend(
            page,
            f"{address}#"
            + text_of(
                page,
                "return writePass(await narrowed(readPass(await passToTry('anna-1')), ['until < 2026-01-02T18:00']))",
            ),
        )
        page.run("byName('to-day').click(); byName('to-find').click()")
        for place in ("find-looked", "lend-trouble"):
            has(
                page.run(f"return byName('{place}').textContent"),
                f"a pass that has ended: {place}",
                "This pass has ended.",
                "January 2",
                "ask the office or the person who gave you this pass",
                "Enter another pass",
            )
        check(
            page.run("return byName('find-grid').rows.length") == 0,
            "no grid under an ended pass",
            page.run("return shownText('find-part')"),
        )
        page.click("find-next")
        check(
            page.run("return shownText('find-news')") == "This pass has ended.",
            "the search under an ended pass",
            page.run("return shownText('find-news')"),
        )
        check(not page.driver.get_log("browser"), "the console", page.driver.get_log("browser"))
    keeps_so_many(address)
    print("the page reports a full storage, too many passes, and who counted the holder's points")


# Passes of the trial club that differ only in one limit.
MANY = "return Promise.all(Array.from({ length: 22 }, async (_, count) => writePass(await narrowed(readPass(await passToTry('anna-1')), [`spend <= ${9000 + count}`]))))"


def keeps_so_many(address):
    """The page stores at most 20 passes and 20 spare passes. When the member adds another pass, the page states this limit. After the member has
    removed a pass, the page stores the new pass."""
    with Browser() as page:
        page.helpers = HELPERS
        opens_lend(page, address)
        *passes, first, last = text_of(page, MANY)
        page.run(
            "localStorage['demo passes'] = JSON.stringify(arguments[0].map((text, count) => ({ text, name: `pass ${count + 1}` })))",
            passes,
        )
        opens_lend(page, f"{address}#{last}")
        page.run("pressIn(byName('notices'), 'Keep it')")
        has(
            page.run("return shownText('notices')"),
            "a 21st pass",
            "This browser can't keep more than 20 passes.",
            "“Forget the pass” under “Account”",
        )
        check(
            "can't keep the pass" not in page.run("return shownText('notices')"),
            "a 21st pass",
            page.run("return shownText('notices')"),
        )
        page.run(
            "byName('to-account').click(); pressIn(byName('pass-buttons'), 'Keep the pass in this browser')"
        )
        has(page.run("return shownText('pass-news')"), "once more", "keep more than 20 passes")
        page.run(
            "byName('who').value = arguments[0]; byName('who').dispatchEvent(new Event('change')); byName('to-account').click(); pressIn(byName('pass-buttons'), 'Forget the pass')",
            passes[7],
        )
        page.run("pressIn(byName('dialog'), 'Forget the pass')")
        time.sleep(0.5)
        check(
            page.run("return state.given") == last and page.run("return keptPasses().length") == 19,
            "the pass to keep",
            page.run("return state.name"),
        )
        page.run(
            "byName('to-account').click(); pressIn(byName('pass-buttons'), 'Keep the pass in this browser')"
        )
        check(
            page.run("return shownText('pass-news')") == "The pass is kept in this browser.",
            "there is space",
            page.run("return shownText('pass-news')"),
        )
        check(
            page.run("return keptPasses().map((each) => each.text)")
            == [last, *passes[:7], *passes[8:]],
            "the other passes are unchanged",
        )
        # The browser has 20 spare passes, and the first of them is lent.
        page.run(
            "localStorage.removeItem('demo passes'); localStorage['demo spares'] = JSON.stringify(arguments[0])",
            passes,
        )
        page.run(
            "localStorage['demo loans'] = JSON.stringify([{ given: arguments[0], says: 'lent', spare: arguments[0] }])",
            passes[0],
        )
        opens_lend(page, f"{address}#spare={first};{last}")
        has(
            page.run("return dialogText()"),
            "a 21st spare pass",
            "To keep these spare passes, remove 2 spare passes that you no longer need: a browser keeps at most 20.",
        )
        check(
            page.run("return byName('dialog').querySelectorAll('li').length") == 19,
            "a lent spare pass can't be removed",
            page.run("return dialogText()"),
        )
        keep("spares-full.png", page.driver.get_screenshot_as_base64())
        for count in (0, 1):
            check(
                "There is space now." not in page.run("return dialogText()")
                and page.run("return keptSpares()") == passes[:1] + passes[1 + count :],
                "removed",
                count,
            )
            page.run("byName('dialog').querySelector('li button').click()")
        has(
            page.run("return dialogText()"),
            "two spare passes are removed",
            "anna-1 is removed.",
            "There is space now.",
        )
        page.run("pressIn(byName('dialog'), 'Go on')")
        time.sleep(0.5)
        page.run("pressIn(byName('dialog'), 'Keep it')")
        time.sleep(0.5)
        check(
            "The spare passes are kept." in page.run("return dialogText()")
            and page.run("return keptSpares()") == [passes[0], *passes[3:], first, last],
            "kept",
            page.run("return dialogText()"),
        )
        page.run("pressIn(byName('dialog'), 'Close')")
        page.run(FULL)
        page.run(
            "offerSpares([arguments[0]]); pressIn(byName('dialog'), 'Remove anna-1')", passes[1]
        )
        check(
            "anna-1 is removed" not in page.run("return dialogText()"),
            "nothing is removed if the storage accepts nothing",
            page.run("return dialogText()"),
        )
        page.run("byName('dialog').querySelector('.main').click()")
        check(
            page.run("return keptSpares().length") == 20 and not page.run("return dialogText()"),
            "the spare passes stay",
            page.run("return dialogText()"),
        )
        check(not page.driver.get_log("browser"), "the console", page.driver.get_log("browser"))


def club_to_try():
    """The member opens web/demo.html from a folder, and books, cancels and lends with the desk inside the page. The page loads and sends nothing."""
    shutil.copy(f"{TOP}/web/demo.html", "demo.html")
    policy_holds(
        pathlib.Path("demo.html"),
        {"trusted-types": "'none'"},
        "new Function|sendBeacon",
        "pass.html",
    )
    address = pathlib.Path("demo.html").absolute().as_uri()
    with Browser() as page:
        page.helpers = HELPERS
        page.open(address)
        time.sleep(2)
        page.run("cellAt('court-1', 20) && showDay(daysLater(clubMoment().slice(0, 10), 20))")
        time.sleep(1)
        page.run("cellAt('court-1', 20).button.click()")
        page.run("byName('dialog').querySelector('.main').click()")
        time.sleep(1)
        check(
            "Booked. 200 points" in page.run("return dialogText()"),
            "a booking at the trial club",
            page.run("return document.body.innerText"),
        )
        page.run(
            "pressIn(byName('dialog'), 'Close'); byName('to-bookings').click(); byName('to-come').querySelector('.booked button').click(); pressIn(byName('dialog'), 'Cancel the booking')"
        )
        time.sleep(1)
        check(
            "200 points came back" in page.run("return dialogText()"),
            "a cancellation at the trial club",
            page.run("return dialogText()"),
        )
        page.run(
            "pressIn(byName('dialog'), 'Close'); byName('to-lend').click(); byName('lend-make').click()"
        )
        time.sleep(1)
        check(
            page.run("return byName('lend-address').value").startswith(f"{address}#"),
            "a link",
            page.run("return byName('lend-address').value"),
        )
        check(
            page.run(
                "return Object.keys(localStorage).every((name) => name.startsWith('demo ') || name === 'club to try')"
            ),
            "separate names in the storage",
        )
        page.sent_nothing(address)
    lends_what_the_pass_opens(address)
    says_what_it_keeps(address)
    tries_the_club(address)
    # If the member opens web/book.html from a folder, the page says so, and links to web/demo.html.
    shutil.copy("www/book.html", "book.html")
    with Browser() as page:
        page.open(pathlib.Path("book.html").absolute().as_uri())
        time.sleep(1)
        has(
            page.run("return document.getElementById('notices').innerText"),
            "a page from a folder",
            "You opened this page from a folder.",
            "A club to try",
        )
        page.driver.find_element("link text", "A club to try").click()
        page.driver.switch_to.window(page.driver.window_handles[-1])
        check(
            page.driver.current_url.endswith("/demo.html"),
            "the link to the trial club",
            page.driver.current_url,
        )
    print(
        "the trial club books, cancels and lends, and loads and sends nothing; a page from a folder links to it"
    )


def lends_in_a_minute(passes, server):
    """A member with a letter lends her son 600 points for courts until Friday. Her son opens the link on another telephone and books. The test waits
    a second before each press. The member has the link in less than a minute. The test runs with three pairs of browsers.
    """
    import page_engines

    kinds = [page_engines.Chromium, page_engines.Firefox, page_engines.WebKit]
    for place, (hers, his) in enumerate(zip(kinds, kinds[1:] + kinds[:1])):
        front = start_proxy(server.port)
        with hers() as member, his() as son:
            key, spare = f"minute-{place}", f"minute-lend-{place}"
            pathlib.Path("spare").write_text(passes[spare])
            letter = printed(
                "env",
                f"DESK=https://{member.host}:{front}",
                f"{TOP}/deploy/letter",
                key,
                "spare",
                given=passes[key],
            )
            links = list(
                dict.fromkeys(
                    re.findall(f'https://{member.host}:{front}/book.html#[^"<\\s]+', letter)
                )
            )
            check(len(links) == 2, "the letter's links", links)
            presses = 0
            member.helpers = (
                son.helpers
            ) = "const shown = (id) => document.getElementById(id).innerText.trim();"

            def press(engine, path):
                nonlocal presses
                time.sleep(1)
                engine.tap(path)
                presses += 1

            def button_in(root, words):
                return f"//*[@id='{root}']//button[normalize-space()='{words}']"

            begun = time.monotonic()
            member.open(links[0])
            member.when("shown('notices').includes('Keep the pass')", "her page")
            press(member, button_in("notices", "Keep it"))
            member.open(links[1])
            member.when(f"shown('dialog').includes('{spare}')", "her spare pass")
            press(member, button_in("dialog", "Keep it"))
            member.when(
                "shown('dialog').includes('The spare passes are kept.')", "the spare pass is kept"
            )
            press(member, button_in("dialog", "Close"))
            press(member, "//button[@id='to-lend']")
            friday = next(
                it for it in range(7) if datetime.strptime(day(it), "%Y-%m-%d").weekday() == 4
            )
            press(member, f"//input[@name='lend-until'][@value='{day(friday)}']/..")
            press(member, "//button[@id='lend-make']")
            member.when("document.getElementById('lend-made').offsetParent !== null", "a link")
            says = f"Anyone with the link may book courts until the end of {page_date(day(friday))}, up to 600 points."
            check(
                member.get("return shown('lend-made-says')") == says,
                "the loan in a sentence for the receiver",
                member.get("return shown('lend-made-says')"),
            )
            press(member, "//button[@id='lend-copy']")
            sent = member.run("return document.getElementById('lend-address').value").replace(
                member.host, son.host
            )
            keep(f"lent-in-{member.name}.png", base64.b64encode(member.picture()))
            hers_took = time.monotonic() - begun
            son.open(sent)
            son.when(f"{DAY_THERE} && shown('pass-says').includes('0 of 600 points')", "his page")
            press(
                son,
                "(//table[@id='slots']//td[@data-facility='court-1']/button[contains(@class, 'free')][not(@disabled)])[1]",
            )
            press(son, "//*[@id='dialog']//button[contains(@class, 'main')]")
            son.when("shown('dialog').includes('Booked.')", "his booking")
            took = time.monotonic() - begun
            keep(f"booked-in-{son.name}.png", base64.b64encode(son.picture()))
            check(
                [rest[0] for rest in amounts(spare).values()] == ["court-1"] and not amounts(key),
                "the file",
                amounts(spare),
                amounts(key),
            )
            check(hers_took < 60, "less than a minute", hers_took)
            print(
                f"lent in {member.name} and booked in {son.name}: {presses} presses, {hers_took:.0f} s until she has the link, {took:.0f} s in all"
            )
