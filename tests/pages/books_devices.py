"""A part of page_books.py: several devices, new keys, corrections by the office, letters, and the record of bookings."""

import base64
import json
import pathlib
import re
from datetime import datetime, timedelta

from booking_page import (
    AHEAD,
    BookingPage,
    ROOT,
    RULE,
    TOP,
    ZONE,
    amounts,
    cancel_by_office,
    club_list,
    curl,
    day,
    draw,
    has,
    keep,
    office,
    page_date,
    printed,
    refused,
    run_proxy,
    same_record,
    start_proxy,
    stop_proxy,
)
from page_browser import Browser, check


def rotations(passes, front, between):
    """The desk refuses the old pass of a rotated key. Under the new pass, the page completes a booking that has no reply yet."""
    with BookingPage(front) as page:
        page.enter(passes["amy-son"], 12)
        between.fates["PUT"] = ["swallowed"] + ["silent"] * 100
        page.book("court-1", 9)
        page.when("dialogText().includes('The page sends the request again')", "no reply")
        new = office("rotate-key", "amy-son", "99" + ROOT, "2000-01-01T00:00")
        between.fates.clear()
        page.comes("doesn't know whether", "a pass that is refused in the meantime")
        page.view("bookings")
        check(
            "The page doesn't know whether this slot is booked"
            in page.run("return byName('to-come').innerText"),
            "a booking in an unknown state",
        )
        page.visit(
            f"#{new}",
            "isShown('day') && state.entries.every((each) => unfinished(each) === null && each.stopped === undefined)",
            "the new pass",
        )
        check(same_record(page, "amy-son") == 1, "one booking")
        # A booking without a reply waits while the member uses another key's pass. When the member returns to the booking's pass, the page sends the
        # request again.
        between.fates["PUT"] = ["silent"] * 100
        page.go(day(12))
        page.book("court-1", 10)
        page.when("dialogText().includes('The page sends the request again')", "no reply")
        page.open(f"{page.address}#{passes['bob-2']}")
        between.fates.clear()
        page.when("isShown('day') && dayIsThere()", "another key's pass")
        page.view("bookings")
        page.when(
            "shownText('needs-pass').includes('1 request of the pass amy-son has no answer yet')",
            "a request that needs its pass",
        )
        page.visit(f"#{new}", "isShown('day') && allAnswered()", "its pass again")
        check(same_record(page, "amy-son") == 2, "two bookings")
    print(
        "a rotated key, and passes of two keys: requests without a reply continue under their own keys"
    )


def devices(passes, front, server):
    """Transfers the list of bookings to another browser by text, by QR code and from the office. Adds a booking whose number and slot the member
    knows."""
    with BookingPage(front) as page:
        page.enter(passes["amy-phone"], 13)
        for hour in (9, 10, 11):
            page.booked("court-1", hour, 1)
        page.view("account")
        text = page.run("return byName('export-text').value")
        check(
            text.startswith("record of amy-phone\n") and text.count("\n") == 4,
            "the record as a text",
            text,
        )
        page.sees(390, "light")
        page.run("byName('export-qr').scrollIntoView()")
        box = page.run(
            "const { left, top, width, height } = byName('export-qr').querySelector('svg').getBoundingClientRect(); return [left + scrollX, top + scrollY, width, height]"
        )
        clip = dict(zip(["x", "y", "width", "height"], box), scale=2)
        pathlib.Path("qr.png").write_bytes(
            base64.b64decode(
                page.command("Page.captureScreenshot", captureBeyondViewport=True, clip=clip)[
                    "data"
                ]
            )
        )
        link = printed("zbarimg", "-q", "--raw", "qr.png").strip()
        check(link.startswith(f"{page.address}#record=amy-phone;"), "the QR code", link)
    by_office = printed(f"{TOP}/deploy/record", "club", "amy-phone")
    check(len(by_office.splitlines()) >= 4, "the office's list", by_office)
    with BookingPage(front) as page:
        page.enter(passes["amy-phone"])
        page.driver.get(link)
        page.when(
            "dialogText().includes('3 bookings of amy-phone') || dialogText().includes('4 bookings of amy-phone')",
            "a record in a link",
        )
        page.press("Add to this browser")
        page.when("state.entries.length >= 3", "its bookings")
        check("#" not in page.driver.current_url, "its address is cleaned")
        page.view("account")
        page.run(
            "byName('import-text').value = arguments[0]; byName('import').requestSubmit()",
            by_office,
        )
        page.when("shownText('import-news') !== ''", "the office's record")
        check(
            same_record(page, "amy-phone") == len(by_office.splitlines()) - 1,
            "the office's list matches the record",
        )
        page.run("byName('import').requestSubmit()")
        page.when(
            "shownText('import-news').includes('this browser already has all of the list')",
            "a repeated import",
        )
        page.run(
            "byName('import-text').value = 'record of amy-phone\\n12 court-1'; byName('import').requestSubmit()"
        )
        page.when("shownText('import-news').includes(\"Line 2 doesn't belong\")", "an odd record")
        page.cancelled_in_the_list("a cancellation of what another browser booked")
        same_record(page, "amy-phone")
    number = max(
        amounts("amy-phone"),
        key=lambda each: amounts("amy-phone")[each][2] if not amounts("amy-phone")[each][-2] else 0,
    )
    slot = amounts("amy-phone")[number]
    with BookingPage(front) as page:
        page.enter(passes["amy-phone"])
        page.view("account")
        page.run("byName('lost-part').open = true")
        unused = next(each for each in range(1, 1000) if each not in amounts("amy-phone"))
        before = amounts("amy-phone")
        for asked, words in (
            ("0", "Enter a number from 1"),
            (unused, "never used this number"),
            (number, "Noted"),
        ):
            page.run(
                """["number", "facility", "day", "hour"].forEach((name, place) => { byName(`lost-${name}`).value = arguments[place]; });
                byName("lost").requestSubmit();""",
                *map(str, (asked, *slot[:3])),
            )
            page.when(f"shownText('lost-news').includes('{words}')", "a booking by its number")
        check(amounts("amy-phone") == before, "the question changes nothing")
        page.view("bookings")
        page.when(
            "byName('to-come').innerText.includes('You noted this booking by its number')",
            "the noted booking in the list",
        )
        page.cancelled_in_the_list("a cancellation by number and slot")
        check(amounts("amy-phone")[number][-2] == 1, "the booking is cancelled")
    print(
        "the record goes to other browsers by text, by QR code and from the office; number and slot suffice to cancel"
    )


def cancelled_by_the_office(passes, front, server):
    with BookingPage(front) as page:
        page.enter(passes["bob-2"], 14)
        entry = page.booked("boat-2", 9, 1)
        page.view("bookings")
        page.when("byName('to-come').innerText.includes('Booked')", "a booking")
        check(
            "may have cancelled" not in page.run("return byName('to-come').innerText"),
            "no mark yet",
        )
        cancel_by_office(server, entry, "bob-2", "bob")
        page.view("day")
        page.view("bookings")
        page.when(
            "byName('to-come').innerText.includes('The office may have cancelled this booking.')",
            "a booking that the office cancelled",
        )
    print("a booking that the office cancelled is marked")


def at_hand(passes, server):
    """The page opens without a network and shows the list of bookings. When the network returns, the page works again. The page also works with an
    old service worker, or without a service worker."""
    front = start_proxy(server.port)
    with BookingPage(front) as page:
        page.enter(passes["hand-1"], 34, "Keep it")
        page.when("opensOffline()", "a worker")
        page.booked("court-1", 9)
        kept = page.driver.execute_async_script(
            """const done = arguments[0];
            (async () => {
              const found = [];
              for (const name of await caches.keys()) for (const { url } of await (await caches.open(name)).keys()) found.push(url);
              done(found.sort());
            })();"""
        )
        base = page.address.rsplit("/", 1)[0]
        manifest = page.command("Page.getAppManifest")
        check(
            manifest["url"].endswith("/app.webmanifest")
            and not manifest["errors"]
            and json.loads(manifest["data"])["display"] == "standalone",
            "the manifest",
            manifest,
        )
        # Because of the test's own certificate, the browser may report that the page's origin isn't secure. It must report no other fault.
        wrong = [
            each["errorId"]
            for each in page.command("Page.getInstallabilityErrors")["installabilityErrors"]
        ]
        check(set(wrong) <= {"not-from-secure-origin"}, "a page for the home screen", wrong)
        check(
            kept
            == sorted(
                f"{base}/{name}"
                for name in ("book.html", "pass.html", "club.json", "app.webmanifest")
            ),
            "the worker's cached pages",
            kept,
        )
        stop_proxy(front)
        page.command("Network.enable")
        page.command(
            "Network.emulateNetworkConditions",
            offline=True,
            latency=0,
            downloadThroughput=-1,
            uploadThroughput=-1,
        )
        for end in ("book.html", ""):
            page.open(f"{base}/{end}")
            page.when(
                "shownText('notices').includes('You are offline') && byName('to-come').innerText.includes('Court 1')",
                "the page, offline",
                end,
            )
        page.view("day")
        page.when("shownText('looked').includes('Offline')", "the day, offline")
        page.open(page.address.replace("book.html", "pass.html"))
        check(
            page.driver.execute_script("return document.getElementById('narrow') !== null"),
            "the other page, offline",
        )
        run_proxy(front)
        page.command(
            "Network.emulateNetworkConditions",
            offline=False,
            latency=0,
            downloadThroughput=-1,
            uploadThroughput=-1,
        )
        page.visit("", "isShown('day') && dayIsThere()", "online again")
        # The browser immediately shows a new version of the page, even if the old service worker still runs. When the new service worker runs, only its
        # cache remains.
        whole = pathlib.Path("www/book.html").read_text()
        pathlib.Path("www/book.html").write_text(
            whole.replace("</body>", "<p id='newer'></p></body>")
        )
        page.visit(
            "", "isShown('day') && byName('newer') !== null", "a new page with an old worker"
        )
        worker = pathlib.Path("www/worker.js").read_text()
        pathlib.Path("www/worker.js").write_text(
            re.sub('VERSION = "[0-9a-f]+"', 'VERSION = "another"', worker)
        )
        page.visit("", "isShown('day')", "a new worker")
        found = page.driver.execute_async_script(
            """const done = arguments[0];
            (async () => {
              await (await navigator.serviceWorker.getRegistration()).update();
              for (let tries = 0; tries < 100; tries += 1) {
                const names = await caches.keys();
                if (names.join() === "pages another") return done(names);
                await new Promise((next) => setTimeout(next, 100));
              }
              return done(await caches.keys());
            })();"""
        )
        check(found == ["pages another"], "only the new worker's pages", found)
        pathlib.Path("www/book.html").write_text(whole)
        page.visit("", "isShown('day') && byName('newer') === null", "the earlier page")
        page.cancelled(page.entries()[-1]["number"])
        check(not page.complaints(), "the console says", page.complaints())
    for missing in ("worker.js", "app.webmanifest"):
        kept = pathlib.Path("www", missing).read_text()
        pathlib.Path("www", missing).unlink()
        with BookingPage(front) as page:
            page.enter(passes["hand-1"])
            page.view("account")
            wanted = (
                "needs a network to open"
                if missing == "worker.js"
                else "also opens without a network"
            )
            page.when(f"shownText('at-hand').includes('{wanted}')", "a page without", missing)
        pathlib.Path("www", missing).write_text(worker if missing == "worker.js" else kept)
    print(
        "without a network, the page opens with the list; a missing worker, a missing manifest or an old worker does no harm"
    )


def tells_what_is_missing(passes, front):
    """The page compares its list with the spent points that the desk counts. So the page shows that a booking was cancelled elsewhere, or that a
    booking isn't in the list. The page reminds the member to save the list."""
    key = "counts-1"
    asks = "globalThis.persistAsked = 0; navigator.storage.persist = async () => { persistAsked += 1; return true; }; navigator.storage.persisted = async () => false;"
    with BookingPage(front, before=asks) as page:
        page.enter(passes[key], 35, "Keep it")
        check(
            page.run("return persistAsked") == 0,
            "the page asks the browser for nothing before it has a list",
        )
        for place, guests in enumerate((0, 1, 0)):
            page.booked("court-2", 9 + place, guests)
        check(
            page.run("return persistAsked") == 1,
            "the browser is asked once to keep the list",
            page.run("return persistAsked"),
        )
        page.view("bookings")
        has(
            page.run("return shownText('list-kept')"),
            "the browser's promise",
            "This browser keeps the list until you clear the browser's data.",
        )
        first = page.entries()
        page.view("bookings")
        page.when("state.account?.spent === 800", "the account")
        check(not page.run("return isShown('list-says')"), "a complete list")
        page.when(
            "isShown('list-remind') && shownText('list-remind').includes('3 bookings')",
            "a reminder",
        )
        page.press("Take the list with you", "list-remind")
        page.press("Copy the list", "account")
        page.view("bookings")
        check(
            not page.run("return isShown('list-remind')"), "no reminder after the list was copied"
        )
        gone = first[1]
        curl(page, "DELETE", f"/slots/court-2/{day(35)}/10/bookings/{gone['number']}", passes[key])
        # The slot has as many free places as before, so only the spent points that the desk counts show the change.
        curl(
            page, "PUT", f"/slots/court-2/{day(35)}/10/bookings/5", passes["other"], '{"guests":1}'
        )
        page.view("day")
        page.view("bookings")
        page.when(
            "shownText('list-says').includes('This pass spent 400 points less than this list')",
            "a booking that was cancelled elsewhere",
        )
        cards = page.run(
            "return [...byName('to-come').children].filter((each) => each.innerText.includes('may have been cancelled elsewhere')).map((each) => each.innerText)"
        )
        check(
            len(cards) == 1 and f"Number {gone['number']}" in cards[0],
            "the booking that may be cancelled",
            cards,
        )
        page.cancelled(gone["number"], "a cancellation of that booking")
        page.when("!isShown('list-says')", "a complete list again")
        curl(page, "PUT", f"/slots/court-2/{day(35)}/15/bookings/6", passes[key], '{"guests":0}')
        page.view("day")
        page.view("bookings")
        page.when(
            "shownText('list-says').includes('This pass spent 200 points more than this list')",
            "a booking that isn't listed",
        )
        link = printed(
            "env",
            f"DESK={page.address.rsplit('/', 1)[0]}",
            f"{TOP}/deploy/record",
            "--link",
            "club",
            key,
        ).strip()
        page.driver.get(link)
        page.when(f"dialogText().includes('bookings of {key}')", "the office's list by a link")
        page.press("Add to this browser")
        page.when("!isShown('list-says')", "a list completed from the office's list")
        for each in amounts(key):
            slot = amounts(key)[each]
            curl(
                page,
                "DELETE",
                f"/slots/{slot[0]}/{slot[1]}/{slot[2]:02}/bookings/{each}",
                passes[key],
            )
        curl(page, "DELETE", f"/slots/court-2/{day(35)}/10/bookings/5", passes["other"])
    print(
        "the points that the desk counts show a booking that was cancelled elsewhere, and one that isn't listed; the office's list comes by a link"
    )


def does_more_with_bookings(page, passes, between):
    """Adds a booking to the calendar, invites a friend, books the same hour a week later, and changes the booking's hour or guests."""
    page.enter(passes["more-1"], 20)
    entry = page.booked("court-2", 10)
    page.view("bookings")

    def more(words, number=entry["number"]):
        page.run(
            """const card = [...byName('to-come').children].find((each) => each.textContent.includes(`Number ${arguments[0]}`));
            card.querySelector('.more').open = true; pressIn(card.querySelector('.more'), arguments[1])""",
            number,
            words,
        )

    page.run(
        """globalThis.saved = null;
        const make = URL.createObjectURL;
        URL.createObjectURL = (blob) => { blob.text().then((text) => { saved = text; }); return make.call(URL, blob); };
        Object.defineProperty(navigator, "share", { value: async (it) => { globalThis.sharedIt = it; } });"""
    )
    more("Add to the calendar")
    page.when("saved !== null", "a calendar file")
    begins = datetime.strptime(f"{day(20)}T10", "%Y-%m-%dT%H") - timedelta(hours=AHEAD)
    has(
        page.run("return saved"),
        "the calendar's lines",
        "BEGIN:VALARM",
        f"DTSTART:{begins:%Y%m%dT%H%M%SZ}",
        "SUMMARY:Court 2\\, Rowing & tennis",
    )
    more("Invite")
    page.when("dialogText().includes('sent')", "an invitation")
    text = page.run("return sharedIt.text")
    has(text, "the invitation's text", "Court 2", "10:00 to 11:00", "Rowing & tennis")
    check(
        str(entry["number"]) not in text and passes["more-1"] not in text,
        "no number and no pass in the invitation",
        text,
    )
    page.press("Close")
    more("Book again next week")
    page.when("dialogText().includes('Book for 200 points')", "the same slot a week later")
    has(
        page.run("return dialogText()"),
        "a week later",
        "Book Court 2",
        page_date(day(27), year=True),
        "10:00 to 11:00",
    )
    page.press("Book for 200 points")
    page.comes("Booked.", "a week later")
    later = page.entries()[-1]
    # Changes a booking to another hour, or to more guests. The page makes the new booking first, and then cancels the old booking.
    more("Change")
    page.run("byName('change-hour').value = '12'; byName('change-guests').value = '1'")
    page.press("Look up")
    page.when(
        "dialogText().includes('Book the new slot for 400 points, and cancel the old booking')",
        "what a change costs",
    )
    has(
        page.run("return dialogText()"),
        "what a change does",
        "12:00 to 13:00",
        "2 persons",
        "The old booking gives back 200 points",
        "you have both",
    )
    page.press("Book the new slot for 400 points, and cancel the old booking")
    page.comes("Changed. 200 points came back.", "a change")
    found = amounts("more-1")
    check(
        [found[entry["number"]][-2:], sorted(rest[:4] for rest in found.values() if not rest[-2])]
        == [(1, 200), [("court-2", day(20), 12, 1), ("court-2", day(27), 10, 0)]],
        "the file after a change",
        found,
    )
    moved = next(each for each in page.entries() if each["hour"] == 12 and each["day"] == day(20))
    # If the desk refuses the new booking, the old booking stays.
    number = draw.randrange(1, 10**9)
    curl(
        page,
        "PUT",
        f"/slots/court-2/{day(20)}/13/bookings/{number}",
        passes["other"],
        '{"guests":3}',
    )
    page.view("bookings")
    more("Change", moved["number"])
    page.run("byName('change-hour').value = '13'")
    page.press("Look up")
    page.when("dialogText().includes('cancel the old booking')", "a full slot")
    page.press("Book the new slot for 400 points, and cancel the old booking")
    page.comes("Not changed: you still have the old booking.", "a failed change")
    check(not amounts("more-1")[moved["number"]][-2], "the old booking stays")
    # If the member can't cancel the old booking any more, she has both bookings, and the page says so.
    between.fates["DELETE"] = ['answer 409 {"fault":21,"text":"slot has begun"}']
    more("Change", moved["number"])
    page.run("byName('change-hour').value = '15'; byName('change-guests').value = '0'")
    page.press("Look up")
    page.when("dialogText().includes('cancel the old booking')", "another hour")
    page.press("Book the new slot for 200 points, and cancel the old booking")
    page.comes(
        "You have both bookings: the old booking wasn't cancelled.",
        "a change with a failed cancellation",
    )
    both = page.entries()[-1]
    check(
        [amounts("more-1")[each["number"]][-2] for each in (moved, both)] == [0, 0],
        "both bookings are in the file",
    )
    page.cancelled(both["number"], "the new booking")
    more("Change", moved["number"])
    page.press("Look up")
    check("You already have this booking." in page.run("return dialogText()"), "no change")
    page.press("Close")
    curl(page, "DELETE", f"/slots/court-2/{day(20)}/13/bookings/{number}", passes["other"])
    for each in (moved, later):
        page.cancelled(each["number"], "all bookings")
    page.run(
        "return Promise.all(ownEntries().filter((each) => stateOf(each) === 'refused').map((each) => state.store.remove(each.key, each.number)))"
    )
    same_record(page, "more-1")
    print(
        "a booking goes into a calendar and an invitation, is repeated, and gets another hour and more guests; a failed change keeps the old booking"
    )


def letters(passes):
    """The link and the QR code in the office's letter contain the pass. deploy/letter refuses texts that aren't the key's pass. deploy/club_json and
    deploy/record refuse wrong input too."""
    address, letter = "https://desk.example.org", f"{TOP}/deploy/letter"
    link = f"{address}/book.html#{passes['amy-1']}"
    for words in ("en", "de"):
        text = printed(
            "env",
            f"DESK={address}",
            "CLUB=Rowing & tennis",
            f"WORDS={words}",
            letter,
            "amy-1",
            given=passes["amy-1"] + "\n",
        )
        check(
            "Rowing &amp; tennis" in text and text.count(link) == 2, "a letter, and its link", text
        )
        table = json.loads(pathlib.Path(TOP, f"web/src/words/{words}.json").read_text())
        has(text, "the page's own words", f"{table['keep-yes']}{'”' if words == 'en' else '“'}.")
        pathlib.Path("letter.html").write_text(text)
        with Browser() as browser:
            browser.driver.get(pathlib.Path("letter.html").absolute().as_uri())
            browser.sees(800, "light")
            keep(f"letter-{words}.png", browser.picture())
            browser.command(
                "Emulation.setDeviceMetricsOverride",
                width=800,
                height=900,
                deviceScaleFactor=3,
                mobile=False,
            )
            pathlib.Path("letter.png").write_bytes(base64.b64decode(browser.picture()))
        read = printed("zbarimg", "-q", "--raw", "letter.png").strip()
        check(read == link, "its QR code", read)
    for place in (1, 2):
        pathlib.Path(f"spare-{place}").write_text(passes[f"amy-lend-{place}"] + "\n")
    text = printed(
        "env", f"DESK={address}", letter, "amy-1", "spare-1", "spare-2", given=passes["amy-1"]
    )
    lending = f"{address}/book.html#spare={passes['amy-lend-1']};{passes['amy-lend-2']}"
    has(
        text,
        "the page's own words",
        f"“{json.loads(pathlib.Path(TOP, 'web/src/words/en.json').read_text())['view-lend']}”",
    )
    check(
        text.count(lending) == 2 and text.count("To lend") == 1 and text.count(link) == 2,
        "a letter with a second half",
        text,
    )
    pathlib.Path("letter.html").write_text(text)
    with Browser() as browser:
        browser.driver.get(pathlib.Path("letter.html").absolute().as_uri())
        browser.sees(800, "light")
        keep("letter-spares.png", browser.picture())
        browser.command(
            "Emulation.setDeviceMetricsOverride",
            width=800,
            height=900,
            deviceScaleFactor=3,
            mobile=False,
        )
        pathlib.Path("letter.png").write_bytes(base64.b64decode(browser.picture()))
    read = printed("zbarimg", "-q", "--raw", "letter.png").split()
    check(sorted(read) == sorted([link, lending]), "its two QR codes", read)
    pathlib.Path("spare-root").write_text("00" + ROOT)
    pathlib.Path("spare-own").write_text(passes["amy-1"])
    for file, fault in (
        ("missing", "no file missing"),
        ("spare-root", "is a root"),
        ("spare-own", "the member's own pass"),
    ):
        refused(fault, letter, "amy-1", file, given=passes["amy-1"], DESK=address)
    for key, given, its_address in [
        ("bob-1", passes["amy-1"], address),
        ("amy-1", "00" + ROOT, address),
        ("amy-1", "", address),
        ("amy-1", passes["amy-1"], "http://desk.example.org"),
        ("amy-1", passes["amy-1"], ""),
        ("AMY", passes["amy-1"], address),
        ("amy-1", passes["amy-1"] + "\nmore", address),
        ("amy-1", passes["amy-1"], 'https://x"><b>'),
    ]:
        refused("^letter: ", letter, key, given=given, DESK=its_address)
    club_json = f"{TOP}/deploy/club_json"
    for words, fault in [
        (
            ["club", "Etc/GMT+9" if AHEAD != -9 else "Etc/GMT+8"],
            "one of the two time zones is wrong",
        ),
        (["club", "Nowhere/None"], "no time zone"),
        (["club", "../passwd"], "not the name of a time zone"),
        (["missing", ZONE], "there is no file"),
    ]:
        refused(fault, club_json, *words, RULE=RULE)
    refused(
        "there is no file missing",
        club_json,
        "club",
        ZONE,
        RULE=RULE,
        CLUB="Rowing & tennis",
        TITLES="missing",
    )
    pathlib.Path("odd").write_text("court-9 Nowhere\n")
    refused("court-9", club_json, "club", ZONE, RULE=RULE, CLUB="Rowing & tennis", TITLES="odd")
    odd = 'It\'s "1" <b> \\n \u00e4'
    listed = json.loads(club_list(f"court-1 {odd}\n"))["facilities"]
    check(listed[0]["title"] == odd and "title" not in listed[1], "odd titles", listed)
    check(
        json.loads(club_list("court-1 Court 1 | Clay, flat soles\n"))["facilities"][0]
        | {"opens": 8}
        == {
            "name": "court-1",
            "title": "Court 1",
            "about": "Clay, flat soles",
            "kind": "court",
            "opens": 8,
            "shuts": 22,
        },
        "a facility's sentence",
    )
    pathlib.Path("logo.svg").write_text("<svg xmlns='http://www.w3.org/2000/svg'/>")
    more = {
        "CONTACT": "Tel. 030 1234",
        "IMPRINT": "https://club.example/imprint",
        "PRIVACY": "https://club.example/privacy",
        "LOGO": "logo.svg",
    }
    found = json.loads(
        printed(
            "env",
            f"RULE={RULE}",
            *(f"{name}={value}" for name, value in more.items()),
            club_json,
            "club",
            ZONE,
        )
    )
    check(
        found["contact"] == more["CONTACT"]
        and found["imprint"] == more["IMPRINT"]
        and found["logo"].startswith("data:image/svg+xml;base64,PHN2"),
        "the club's contact, imprint and logo",
        found,
    )
    for name, value, fault in (
        ("IMPRINT", "http://club.example", "IMPRINT is not an address"),
        ("PRIVACY", "javascript:x", "PRIVACY is not an address"),
        ("CONTACT", "x" * 201, "more than 200"),
        ("LOGO", "club", "a logo must be"),
        ("LOGO", "missing.svg", "can't be read"),
    ):
        refused(fault, club_json, "club", ZONE, RULE=RULE, **{name: value})
    for key, fault in [
        ("nobody", "no key nobody"),
        ("Amy", "is not the name of a key"),
        ("a'b", "is not the name of a key"),
    ]:
        refused(fault, f"{TOP}/deploy/record", "club", key)
    print("the office's letters, lists and records, and their refusals")
