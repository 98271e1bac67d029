"""A part of page_books.py: hostile links, lists, stored values and replies, and odd passes and clubs."""

import json
import pathlib
import time

from booking_page import ROOT, TOOL, ZONE, day, has, narrowed, printed, unasked
from page_browser import check


def lists_send_nothing(page, passes, server):
    """If the member opens a link with a list of bookings, or pastes such a list, the page only requests the slots of these bookings. The page
    sends a booking only after the member presses a button in a dialog that shows the slot and the points.
    """
    key, ahead = "lists-1", 30
    page.enter(passes[key], ahead, "Keep it")
    own = page.booked("court-1", 9)
    before = server.asked()
    names = {
        "8": f"court-1+{day(ahead)}+10+guests+0",
        "9": f"court-2+{day(ahead)}+10+guests+3+cancel",
        "10": f"boat-1+{day(ahead)}+10+guests+1",
        "11": f"room-1+{day(ahead)}+10+guests+0+charge+601+left+0+refund+601",
        str(own["number"]): f"court-1+{day(ahead)}+09+guests+0+charge+200+left+3+refund+200",
        "14": f"court-1+{day(ahead)}+09+guests+3+charge+800+left+0",
    }
    lines = [f"{number}+{rest}" for number, rest in names.items()]
    page.driver.get(f"{page.address}#record={key};{';'.join(lines)}")
    page.when("dialogText().includes('6 bookings of lists-1')", "a list in a link")
    check(len(page.entries()) == 1, "nothing is kept before the press", page.entries())
    page.press("Add to this browser")
    page.when("state.entries.length === 6", "the list's bookings")
    text = f"record of {key}\n12 court-3 {day(ahead)} 10 guests 0\n13 court-3 {day(ahead)} 11 guests 1 cancel\n"
    page.view("account")
    page.run("byName('import-text').value = arguments[0]; byName('import').requestSubmit()", text)
    page.when("state.entries.length === 8", "a pasted list's bookings")
    for again in (False, True):
        if again:
            page.visit("", "isShown('day') && dayIsThere()", "another visit")
            page.go(day(ahead))
        page.view("bookings")
        time.sleep(1.5)
        check(
            not unasked(server, before),
            "requests that a list sent by itself",
            unasked(server, before),
        )
    page.when(
        "byName('to-come').innerText.includes('fewer persons than the list shows')",
        "the listed slots are looked up",
    )
    text = page.run("return byName('to-come').innerText")
    has(
        text,
        "the claims of a list",
        "According to an imported list: booking requested, but no answer yet",
        "According to an imported list: cancellation requested",
        "According to an imported list: cancelled, 601 points came back",
        "An imported list shows this booking as cancelled.",
    )
    own_card = page.run(
        "return [...byName('to-come').children].find((each) => each.innerText.includes(arguments[0])).innerText",
        f"Number {own['number']}",
    )
    check(
        "Booked" in own_card
        and "According to an imported list" not in own_card
        and "may have" not in own_card,
        "a list can't show a standing booking as cancelled",
        own_card,
    )
    page.view("day")
    check(
        "Yours, 1 person" in page.run("return cellAt('court-1', 9).button.innerText"),
        "the slot of her own booking",
    )
    check(
        "4 of 4 free" in page.run("return cellAt('court-1', 10).button.innerText"),
        "a slot that only a list names",
    )
    # When the member presses the button, the page sends the listed booking once.
    page.view("bookings")
    page.run(
        """[...byName('to-come').children].find((each) => /Number 10(?![0-9])/.test(each.innerText)).querySelector('button').click()"""
    )
    page.when("dialogText().includes('Book for 300 points')", "the press")
    has(
        page.run("return dialogText()"),
        "the dialog after the press",
        "Book Double scull",
        "10:00 to 11:00",
        "300 points",
        "the desk confirms it",
    )
    check(not unasked(server, before), "sent before the press", unasked(server, before))
    page.press("Book for 300 points")
    page.comes("Booked.", "the listed booking")
    check(
        unasked(server, before) == {("PUT", f"/slots/boat-1/{day(ahead)}/10/bookings/10"): 1},
        "the sent request",
        unasked(server, before),
    )
    page.run(
        "[...byName('to-come').children].find((each) => /Number 8(?![0-9])/.test(each.innerText)).querySelectorAll('button')[2].click()"
    )
    page.when("state.entries.length === 7", "a booking removed from the list")
    page.run(
        "offerCancellation(ownEntries().find((each) => each.number === arguments[0]), () => {})",
        own["number"],
    )
    check(
        "Cancelling now gives back 200 points" in page.run("return dialogText()"),
        "the refund of her own booking",
        page.run("return dialogText()"),
    )
    page.press("Cancel the booking")
    page.comes("200 points came back", "her own booking, in spite of the list")
    print(
        "lists from links and pasted lists send nothing and hide nothing; a press in a dialog with the slot and the points sends a booking"
    )


KEPT = """
const done = arguments[0];
const request = indexedDB.open("desk", 1);
request.onsuccess = () => {
  const all = request.result.transaction("bookings").objectStore("bookings").getAll();
  all.onsuccess = () => { request.result.close(); done(JSON.stringify([{ ...localStorage }, { ...sessionStorage }, all.result, document.cookie])); };
};
"""


def odd_fragments(passes, own):
    """Returns more than 100 URL fragments. The fragments contain passes, lists and screens that are cut off, doubled, escaped or empty."""
    amy, other = passes["amy-1"], passes["other"]
    line = f"{own['number']}+court-1+{own['day']}+{own['hour']:02}"
    ends = [
        "record=",
        "record",
        "record=;",
        "record=lists-1",
        "record=Lists",
        f"record=lists-1;{line}",
        f"record=lists-1;{line}+cancel",
        f"record=lists-1;{line}+guests+0",
        f"record=lists-1;{line}+guests+0+cancel",
        f"record=lists-1;{line}+guests+0+charge+200+left+3+refund+200",
        f"record=lists-1;{line}+guests+0+charge+0+left+0+cancel",
        f"record=lists-1;{line};{line}+cancel",
        f"record=lists-1;8+court-1+{day(31)}+10+guests+0",
        f"record=lists-1;8+court-1+{day(31)}+10+guests+49",
        "record=lists-1;"
        + ";".join(f"{number}+court-1+{day(31)}+10+guests+0" for number in range(20, 60)),
        f"record=amy-1;8+court-1+{day(31)}+10+guests+0",
        f"record=lists-1%3B8%2Bcourt-1%2B{day(31)}%2B10%2Bguests%2B0",
        f"record=lists-1;8 court-1 {day(31)} 10 guests 0",
        "record=lists-1;8+court-1",
        "record=%00",
        "record=%",
        "record=lists-1;0+court-1+2026-05-01+10+guests+0",
        "record=<b>",
        "record=__proto__;8+court-1+2026-05-01+10",
        "record=constructor",
        "record=" + "a" * 9000,
        f"screen={amy}&record=lists-1;{line}+cancel",
        f"record=lists-1;{line}+cancel#screen",
        f"{amy};{line}+cancel",
        f"{amy}#record=lists-1;{line}+cancel",
        f"{amy}&keep=yes",
        f"keep={amy}",
        f"pass={amy}",
        f"forget={amy}",
        "forget",
        f"book={line}",
        f"cancel={line}",
        f"book/court-1/{day(31)}/10/8",
        f"/slots/court-1/{day(31)}/10/bookings/8",
        "account",
        "welcome",
        "day",
        "dialog",
        "import",
        "use",
        "keep",
        "javascript:alert(1)",
        "data:text/html,x",
        "null",
        "undefined",
        "[object Object]",
        "{}",
        "[]",
        '{"v":2}',
        '{"pass":"x"}',
        "%7B%22v%22%3A2%7D",
        "0",
        "-1",
        "NaN",
        "true",
        " ",
        "%20",
        "%0A",
        "\u00e4",
        "%C3%A4",
        "%ff",
        "\U0001f3be",
        "<script>alert(1)</script>",
        "%3Cimg src=x onerror=alert(1)%3E",
        "'",
        '"',
        "\\",
        "..",
        "../..",
        "?x=1",
        "#",
        "##",
        "=",
        "==",
        "&",
        ";",
        "+",
        "A",
        "AA",
        "Ag",
        "AgE",
        amy[:20],
        amy[:-1],
        amy[1:],
        amy + amy,
        amy[::-1],
        amy.swapcase(),
        f"%20{amy}%20",
        amy.replace("A", "%41"),
        other,
        passes["hall-screen"],
        passes["lists-1"],
        narrowed(amy, "actions = view"),
        narrowed(passes["lists-1"], "until < 2026-01-01T00:00"),
        printed(TOOL, "mint", "--root", ROOT, "--id", "key:lists-1").strip(),
        printed(TOOL, "mint", "--root", ROOT, "--id", "key:amy-1").strip(),
        printed(TOOL, "mint", "--root", ROOT, "--id", "lists-1").strip(),
        *(printed(TOOL, "convert", "--form", form, given=amy).strip() for form in ("v1", "json")),
    ]
    screens = [
        "screen=" + end
        for end in (
            "",
            amy,
            other,
            amy[:-1],
            "x",
            "%",
            "{}",
            passes["hall-screen"],
            narrowed(amy, "actions = view"),
            "record=x",
        )
    ] + ["screens", "Screen=x", "screen&x"]
    return [*ends, *screens]


def nothing_by_itself(page, passes, between, server):
    """The page sends a PUT or a DELETE, or changes stored data, only if the member presses a button. URL fragments, messages, stored values and
    forged replies never have this effect."""
    page.enter(passes["lists-1"], 31, "Keep it")
    own = page.booked("court-1", 9)
    page.visit("", "isShown('day') && dayIsThere() && allAnswered(1)", "a member's page")
    before, kept = server.asked(), page.driver.execute_async_script(KEPT)
    check('"passes"' in kept and f'"number":{own["number"]}' in kept, "the stored data", kept)

    def unchanged(*what):
        found = page.driver.execute_async_script(KEPT)
        check(found == kept, "changed stored data", *what, kept, found)
        check(not unasked(server, before), "sent without a press", *what, unasked(server, before))

    fragments = odd_fragments(passes, own)
    for end in fragments:
        page.open(f"{page.address}#{end}")
        page.when(
            "isShown('screen') || (state.sender !== null && !dialogText().includes('\u0000'))",
            "the page",
            end,
        )
        unchanged("a fragment", end)
    check(len(set(fragments)) > 100, "fragments", len(set(fragments)))
    page.visit("", "isShown('day') && dayIsThere()", "her own page again")
    for end in fragments:  # an open page gets each fragment except those that begin with `screen`
        if not end.startswith("screen"):
            page.run("location.hash = arguments[0]", end)
            time.sleep(0.02)
    time.sleep(1)
    unchanged("a fragment in an open page")
    page.visit(
        "",
        "isShown('day') && dayIsThere() && state.key === 'lists-1'",
        "her own pass is still in use",
    )
    # The page receives messages and events.
    page.run(
        """for (const each of ["changed", null, { book: 1 }, { key: "lists-1", number: 8 }, "cancel", "run", 7]) {
          new BroadcastChannel("desk").postMessage(each);
          window.postMessage(each, "*");
          window.dispatchEvent(new MessageEvent("message", { data: each }));
        }
        for (const key of ["pass", "passes", "screen", null]) window.dispatchEvent(new StorageEvent("storage", { key, newValue: null }));
        for (const name of ["online", "offline", "focus", "visibilitychange", "pageshow"]) { window.dispatchEvent(new Event(name)); document.dispatchEvent(new Event(name)); }"""
    )
    time.sleep(1)
    unchanged("a message")
    # Forged replies to GET requests.
    for place, reply in enumerate(
        [
            '200 {"booking":"lists-1/8","charge":0,"left":0}',
            '200 [{"key":"lists-1","number":8,"book":null}]',
            "200 <html>",
            "200 null",
            '409 {"fault":13,"text":"x"}',
            '404 {"fault":15,"text":"x"}',
            '401 {"fault":9,"text":"x"}',
            '403 {"fault":10,"text":"x"}',
            '200 {"fault":9}',
            "302 x",
            "204 ",
            "500 {}",
            '503 {"fault":22}',
            '200 {"member":"amy","balance":-1,"quota":0,"open":0,"spent":0}',
            '200 {"member":"<b>","balance":5,"quota":5,"open":0,"spent":0}',
        ]
    ):
        between.fates["GET"] = [f"answer {reply}"] * 300
        page.open(page.address)
        page.when("isShown('day') || isShown('welcome')", "the page", reply)
        page.view(("bookings", "account", "day")[place % 3])
        time.sleep(0.3)
        between.fates.clear()
        unchanged("a reply", reply)
    good = pathlib.Path("www/club.json").read_text()
    for text in (
        '{"zone":"Etc/GMT","facilities":[],"book":[8]}',
        good.replace('"court-1"', '"../account"'),
        good.replace("Court 1", "<img src=x onerror=alert(1)>"),
    ):
        pathlib.Path("www/club.json").write_text(text)
        page.visit("", "isShown('day')", "an odd club")
        time.sleep(0.3)
        unchanged("a club's list", text)
    pathlib.Path("www/club.json").write_text(good)
    # If the browser's storage has values that the page can't have written, the page neither sends nor deletes these values.
    odd_values = [
        "",
        "null",
        "7",
        "[]",
        "{}",
        "x",
        "[null]",
        '[{"text":7,"name":"x"}]',
        '[{"text":"x","name":"x"}]',
        '[{"text":"x","name":""}]',
        json.dumps([{"text": passes["amy-1"], "name": "a  b"}]),
    ]
    names = [
        "passes",
        "pass",
        "screen",
        "language",
        "loans",
        "spares",
        "search",
        "last",
        "taken lists-1",
    ]
    for value in odd_values:
        page.run(
            "for (const store of [localStorage, sessionStorage]) for (const name of arguments[0]) store.setItem(name, arguments[1])",
            names,
            value,
        )
        kept = page.driver.execute_async_script(KEPT)
        page.driver.refresh()
        page.when("isShown('day') || isShown('welcome')", "a value", value)
        unchanged("a value", value)
    page.run(
        "for (const store of [localStorage, sessionStorage]) for (const name of arguments[0]) store.removeItem(name)",
        names,
    )
    page.run(
        "localStorage.setItem('passes', JSON.stringify([{ text: arguments[0], name: 'Mum' }]))",
        passes["lists-1"],
    )
    entry = {
        "key": "lists-1",
        "number": 8,
        "facility": "court-1",
        "day": day(31),
        "hour": 12,
        "guests": 0,
        "book": None,
        "unsure": True,
        "asked": 1,
    }
    odd = [
        {"number": 2, "facility": "../account"},
        {"number": 3, "day": "2026-02-30"},
        {"number": 4, "hour": 24},
        {"number": 5, "guests": None},
        {"number": 6, "guests": "0"},
        {"number": 7, "book": "x"},
        {"number": 0},
        {"number": 1.5},
        {"number": 11, "listed": {}},
        {"number": 12, "listed": None},
        {"number": 13, "asked": None},
        {"number": 14, "guests": 50},
    ]
    page.run("return state.store.put(...arguments[0])", [{**entry, **more} for more in odd])
    kept = page.driver.execute_async_script(KEPT)
    page.visit("", "isShown('day') && dayIsThere()", "odd entries")
    page.view("bookings")
    time.sleep(1)
    unchanged("odd entries")
    page.run(
        "return Promise.all(arguments[0].map((number) => state.store.remove('lists-1', number)))",
        [each["number"] for each in odd],
    )
    page.visit("", "isShown('day') && dayIsThere()", "her own page at last")
    page.cancelled(own["number"], "her own booking")
    print(
        f"{len(set(fragments))} odd fragments, messages, replies and stored values: without a press, the page sends nothing and changes no stored data"
    )


def keeps_each_pass(page, passes):
    """The browser stores a pass from a link only after the member presses a button, and the pass replaces no stored pass. The hall's screen stores a
    separate pass. The member can name the passes, and choose the pass to use."""
    texts = "JSON.parse(localStorage.passes ?? '[]').map((each) => each.text)"
    page.enter(passes["amy-1"], keeps="Keep it")
    page.enter(narrowed(passes["bob-1"], "kind = court"))
    check(
        page.run(f"return {texts}") == [passes["amy-1"]],
        "a link keeps nothing",
        page.run(f"return {texts}"),
    )
    has(
        page.run("return shownText('notices')"),
        "the notices",
        "You are using the pass “bob-1”",
        "Keep the pass in this browser",
    )
    page.driver.refresh()
    page.when(
        "isShown('day') && dayIsThere() && state.key === 'bob-1'",
        "the page is loaded again with the link's pass",
    )
    page.visit("", "isShown('day') && state.key === 'amy-1'", "another page has the kept pass")
    page.enter(narrowed(passes["bob-1"], "kind = court"), keeps="Keep it")
    check(len(page.run(f"return {texts}")) == 2, "both are kept", page.run(f"return {texts}"))
    page.view("account")
    page.run(
        "byName('pass-name').value = '  Max   of  ours '; byName('pass-name').dispatchEvent(new Event('change'))"
    )
    check(
        page.run("return [...byName('who').options].map((each) => each.textContent)")
        == ["Max of ours", "amy-1"],
        "names",
        page.run("return shownText('who-part')"),
    )
    page.visit("", "isShown('day') && state.key === 'bob-1'", "the pass that was used last")
    page.run(
        "byName('who').value = arguments[0]; byName('who').dispatchEvent(new Event('change'))",
        passes["amy-1"],
    )
    page.when("isShown('day') && dayIsThere() && state.key === 'amy-1'", "another pass is chosen")
    page.visit("", "isShown('day') && state.key === 'amy-1'", "the chosen pass is then the last")
    # The hall's screen stores its own pass.
    screen = narrowed(passes["hall-screen"], "actions = view")
    kept = page.run("return JSON.stringify({ ...localStorage })")
    page.visit(
        f"#screen={screen}",
        "document.querySelectorAll('#screen td.free').length > 50",
        "the screen",
    )
    check(
        "for the hall's screen" in page.run("return shownText('notices')"),
        "the screen asks",
        page.run("return shownText('notices')"),
    )
    check(
        page.run("return JSON.stringify({ ...localStorage })") == kept,
        "nothing is kept before the press",
        page.run("return JSON.stringify({ ...localStorage })"),
    )
    page.press("Keep it", "notices")
    check(
        page.run(f"return [localStorage.screen, {texts}.length]") == [screen, 2],
        "the screen's pass is stored separately",
    )
    page.visit(
        "#screen", "document.querySelectorAll('#screen td.free').length > 50", "the screen again"
    )
    check(
        page.run("return shownText('notices')") == "",
        "the screen asks once",
        page.run("return shownText('notices')"),
    )
    page.visit("", "isShown('day') && state.key === 'amy-1'", "her own pass is still there")
    # If the desk refuses a pass, the member can enter another pass.
    page.visit(
        f"#{printed(TOOL, 'mint', '--root', ROOT, '--id', 'key:amy-1').strip()}",
        "shownText('day-fault').includes(\"doesn't know this pass\")",
        "a refused pass",
    )
    page.press("Enter another pass", "day-fault")
    page.when(
        "isShown('welcome') && document.activeElement === byName('given')",
        "another pass can be entered",
    )
    page.press("Back", "welcome")
    page.when("isShown('day')", "back")
    page.press("Enter another pass", "day-fault")
    page.run(
        "byName('given').value = arguments[0]; byName('keep').checked = true; byName('use').click()",
        passes["carol-1"],
    )
    page.when("isShown('day') && dayIsThere() && state.key === 'carol-1'", "an entered pass")
    check(len(page.run(f"return {texts}")) == 3, "three passes are kept")
    for left in (2, 1, 0):
        page.view("account")
        page.press("Forget the pass", "account")
        page.press("Forget the pass")
        page.when(
            f"{texts}.length === {left} && isShown('{'day' if left else 'welcome'}')",
            "a forgotten pass",
            left,
        )
    check(page.run("return localStorage.screen") == screen, "the screen's pass stays")
    print(
        "links replace no stored pass; passes have names, can be chosen, and are forgotten one at a time; the screen asks, and stores its own pass"
    )


def odd_passes(page, passes):
    whole = passes["amy-1"]
    rows_of = [
        ("", "isn't a complete pass"),
        ("nonsense!", "isn't a complete pass"),
        (whole[:-1], "isn't a complete pass"),
        (whole[:20], "isn't a complete pass"),
        ("A" * 8193, "too long for a pass"),
        ("{" * 100, "isn't a complete pass"),
    ]
    page.open(page.address)
    for text, words in rows_of[1:]:
        page.run("byName('given').value = arguments[0]; byName('use').click()", text)
        page.when(f"shownText('given-fault').includes(\"{words}\")", "an odd pass", text)
        check(
            page.run(
                "return document.activeElement === byName('given') && byName('given').getAttribute('aria-invalid') === 'true'"
            ),
            "a marked field",
        )
        page.visit(
            f"#{text}",
            f"shownText('given-fault').includes(\"{words}\")",
            "an odd pass in a link",
            text,
        )
        check("#" not in page.driver.current_url, "its address is cleaned")
    # The page accepts passes in V1, V2 and JSON.
    for form in ("v1", "v2", "json"):
        text = printed(TOOL, "convert", "--form", form, given=whole)
        page.run("byName('given').value = arguments[0]; byName('use').click()", f"  {text}")
        page.when("isShown('day') && dayIsThere()", "a pass in", form)
        page.run("forgetPass()")
    # The desk refuses two passes. The identifier of the second pass names no key.
    for identifier in ("key:amy-1", "amy"):
        text = printed(TOOL, "mint", "--root", ROOT, "--id", identifier).strip()
        page.visit(
            f"#{text}",
            "shownText('day-fault').includes(\"doesn't know this pass\")",
            "a pass that the desk refuses",
            text,
        )
    print(
        f"{len(rows_of) - 1} odd passes, entered and in links, get their sentences; the page accepts passes of each form"
    )


def odd_clubs(page, passes):
    good = pathlib.Path("www/club.json").read_text()
    for text, words in [
        (None, "can't find the club's list"),
        ("", "list of facilities is wrong"),
        ("{}", "list of facilities is wrong"),
        ("<html>", "list of facilities is wrong"),
        (good.replace(ZONE, "Nowhere/None"), "list of facilities is wrong"),
        (good.replace('"court"', '"pool"'), "list of facilities is wrong"),
    ]:
        pathlib.Path("www/club.json").unlink(missing_ok=True)
        if text is not None:
            pathlib.Path("www/club.json").write_text(text)
        page.visit(
            f"#{passes['amy-1']}",
            f"shownText('notices').includes(\"{words}\")",
            "an odd list",
            text,
        )
        page.view("bookings")
        page.view("account")
        page.when(
            "byName('account-facts').innerText.includes('of 99')", "the account, without the list"
        )
    pathlib.Path("www/club.json").write_text(good)
    page.view("day")
    page.press("Try again", "notices")
    page.when("isShown('day') && dayIsThere()", "the list is there again")
    print(
        "the page reports a missing or odd club.json, and looks for it again; the rest of the page works"
    )
