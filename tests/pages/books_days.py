"""A part of page_books.py: days, bookings and cancellations, the limits of a pass, refusals, the keyboard, and the search for a free time."""

import json
import pathlib
import re
import time
from collections import Counter
from datetime import datetime

from selenium.webdriver.common.keys import Keys

from booking_page import (
    CELLS,
    FACILITIES,
    amounts,
    cancel_by_office,
    club_list,
    curl,
    day,
    draw,
    has,
    narrowed,
    now,
    office,
    page_date,
    same_record,
)
from page_browser import check


def books_and_cancels(page, passes):
    """A member with a link looks at a day, books, sees the booking and cancels it."""
    page.enter(passes["amy-1"])
    check("#" not in page.driver.current_url, "the address is cleaned", page.driver.current_url)
    check(
        page.run("return document.documentElement.scrollWidth <= innerWidth"), "sideways scrolling"
    )
    page.press("Keep it", "notices")
    page.go(day(2))
    looks = page.run("return cellAt('court-1', 18).button.innerText.split('\\n')")
    check(looks == ["4 of 4 free", "200 points"], "a free slot", looks)
    check(
        page.run("return cellAt('room-1', 18).button.innerText.split('\\n')")
        == ["Free", "601 points"],
        "a free room",
    )
    page.offer("court-1", 18)
    page.press("One guest more")
    page.press("One guest more")
    text = page.run("return dialogText()")
    has(
        text,
        "what a booking costs",
        "Book Court 1",
        "18:00",
        "4 places are free",
        "600 points",
        "999,399 points",
        "1 of 99",
        "Book for 600 points",
    )
    page.press("Book for 600 points")
    page.when("dialogText().includes('Booked.')", "a booking")
    check("600 points. Number" in page.run("return dialogText()"), "the result of the booking")
    page.press("Close")
    page.when("cellAt('court-1', 18).button.innerText.includes('Yours, 3 persons')", "my slot")
    same_record(page, "amy-1")
    page.view("bookings")
    card = page.run("return byName('to-come').innerText")
    has(
        card,
        "a booking in the list",
        "Court 1",
        "Booked",
        "3 persons",
        "600 points",
        "cancelling gives back the whole charge of 600 points",
    )
    page.cancelled_in_the_list(
        "a cancellation", asked="Cancelling now gives back 600 points", words="600 points came back"
    )
    page.when(
        "byName('to-come').innerText.includes('Cancelled, 600 points came back')",
        "the cancelled booking",
    )
    # If a member cancels less than a day before the slot begins, she gets back half of the points.
    page.view("day")
    page.go(day(0))
    hour = now().hour + 2
    entry = page.booked("room-1", hour)
    page.cancelled_in_the_list(
        "half of the points", asked="gives back 300 points", words="300 points came back"
    )
    check(amounts("amy-1")[entry["number"]][-1] == 300, "the refund in the file")
    same_record(page, "amy-1")
    page.view("account")
    page.when("byName('account-facts').innerText.includes('999,698')", "the account")
    check("0 of 99" in page.run("return byName('account-facts').innerText"), "the account")
    # The browser stores the pass, so another visit needs no link. The member can remove the pass.
    page.visit("", "isShown('day') && dayIsThere()", "another visit")
    page.view("account")
    check(
        "The pass is kept in this browser." in page.run("return shownText('account')"),
        "the note about the kept pass",
    )
    page.press("Forget the pass", "account")
    page.press("Forget the pass")
    page.when("isShown('welcome')", "a forgotten pass")
    page.visit("", "isShown('welcome')", "a forgotten pass, at the next visit")
    check(
        "Cancelled"
        in page.run("return byName('other-part').hidden ? '' : byName('others').textContent"),
        "the record of a forgotten pass stays",
    )
    # The member pastes a pass, and only this tab stores the pass.
    page.run(
        "byName('given').value = `https://desk.example.org/book.html#${arguments[0]}\\n`; byName('use').click()",
        passes["amy-1"],
    )
    page.when("isShown('day') && dayIsThere()", "a pasted pass")
    page.driver.refresh()
    page.when("isShown('day') && dayIsThere()", "a pass of this tab")
    page.driver.switch_to.new_window("tab")
    page.visit("", "isShown('welcome')", "a pass of another tab")
    page.driver.close()
    page.driver.switch_to.window(page.driver.window_handles[0])
    print(
        "a member opens a link, books, and cancels with a full and a half refund; passes are kept, forgotten and pasted"
    )


def day_says_what_is(page, passes):
    """The page shows each state of a slot, and the days that the member can choose."""
    office("close-slot", "court-2", day(3), "10")
    page.enter(passes["bob-1"], 3)
    words = {
        place: page.run(
            "return cellAt(...arguments).button.innerText.replace(/\\s+/g, ' ')", *place
        )
        for place in [("court-2", 10), ("court-2", 11)]
    }
    check(
        words[("court-2", 10)] == "Closed" and words[("court-2", 11)] == "4 of 4 free 200 points",
        "a closed slot",
        words,
    )
    check(
        page.run("return cellAt('court-2', 10).button.disabled"), "a closed slot can't be pressed"
    )
    other = passes["other"]
    number = draw.randrange(1, 10**9)
    reply = curl(
        page, "PUT", f"/slots/court-2/{day(3)}/12/bookings/{number}", other, '{"guests":3}'
    )
    check(reply.endswith("200"), "another member's booking", reply)
    page.run("look()")
    page.when("cellAt('court-2', 12).button.innerText === 'Full'", "a full slot")
    curl(page, "DELETE", f"/slots/court-2/{day(3)}/12/bookings/{number}", other)
    # The page doesn't request slots that have already begun by the club's clock. The page shows these slots as over.
    page.requests()
    page.go(day(0))
    hour = now().hour
    check(
        page.run("return cellAt('court-1', arguments[0]).button.innerText", hour) == "Over",
        "an hour that has begun",
    )
    check(
        "free" in page.run("return cellAt('court-1', arguments[0]).button.innerText", hour + 1),
        "the next hour",
    )
    asked = [
        address for method, address in page.requests() if "/slots/" in address and method == "GET"
    ]
    check(
        asked and all(int(address[-2:]) > hour for address in asked),
        "past hours aren't requested",
        asked,
    )
    check(page.run("return byName('day-before').disabled"), "no day before today")
    page.run(
        "byName('day-field').value = arguments[0]; byName('day-field').dispatchEvent(new Event('change'))",
        day(1),
    )
    page.when(f"shownDay() === '{day(1)}' && dayIsThere()", "a day from the field")
    check(
        page.run("return [byName('day-field').min, byName('day-field').max]") == [day(0), day(60)],
        "the field's days",
    )
    for button, wanted in [("day-after", 2), ("day-before", 1), ("today", 0)]:
        page.click(button)
        page.when(f"shownDay() === '{day(wanted)}' && dayIsThere()", "a day from a button", button)
    page.go(day(60))
    check(page.run("return byName('day-after').disabled"), "no day after the last")
    check(
        page.run("return cellAt('court-1', arguments[0]).button.innerText", hour) != "Not yet",
        "60 days ahead",
    )
    check(
        page.run("return cellAt('court-1', arguments[0]).button.innerText", hour + 1) == "Not yet",
        "more than 60 days ahead",
    )
    for wanted, words in [(day(61), "You can book from today"), (day(-1), "This day is over")]:
        page.run("showDay(arguments[0])", wanted)
        page.when("dayIsThere()", "a day outside the 60 days")
        check(
            words in page.run("return shownText('day-fault')"),
            "a day outside the 60 days",
            wanted,
            page.run("return shownText('day-fault')"),
        )
        check(
            page.run("return [...cells.values()].every((cell) => cell.button.disabled)"),
            "nothing to press",
            wanted,
        )
    print(
        "slots are closed, full, over or not bookable yet; no button is enabled outside the 60 days"
    )


def says_why_it_is_closed(page, passes, server):
    """The page shows the reason why a slot is closed: in the day, in the slot's dialog, and next to a booking that the office cancelled for the
    closure. The page also shows the reason if the desk refuses a booking because the slot is closed. The reasons come from the club's list, but only
    the desk's replies show whether a slot is closed."""
    good, wanted = pathlib.Path("www/club.json").read_text(), day(25)
    number = (datetime.strptime(wanted, "%Y-%m-%d") - datetime(1970, 1, 1)).days
    page.enter(passes["lists-1"], 25)
    own = page.booked("court-3", 9)
    cancel_by_office(server, own, "lists-1", "amy")
    for hour in ("09", "10", "12"):
        office("close-slot", "court-3", wanted, hour)
    pathlib.Path("club-reasons").write_text(
        json.dumps(
            [
                {
                    "facility": "court-3",
                    "day": number,
                    "from": 9,
                    "until": 12,
                    "why": "Training der Jugend",
                }
            ]
        )
    )
    listed = json.loads(club_list("court-3 Court 3 (indoor)\n"))
    check(
        listed["closures"]
        == [
            {
                "facility": "court-3",
                "day": wanted,
                "from": 9,
                "until": 11,
                "why": "Training der Jugend",
            }
        ],
        "the closures of club.json",
        listed["closures"],
    )
    odd = [
        None,
        7,
        {},
        {"facility": "court-3"},
        {"facility": "court-3", "day": wanted, "from": 12, "until": 13, "why": 7},
        {"facility": "court-3", "day": wanted, "from": 13, "until": 13, "why": "x"},
        {"facility": "../x", "day": wanted, "from": 12, "until": 13, "why": "x"},
    ]
    still_open = {"facility": "court-3", "day": wanted, "from": 14, "until": 15, "why": "no more"}
    pathlib.Path("www/club.json").write_text(
        json.dumps(
            {
                **json.loads(good),
                "closures": [*odd, still_open, *listed["closures"]],
                "contact": "Tel. 030 1234",
            }
        )
    )
    page.enter(passes["lists-1"], 25)
    found = {
        hour: page.run("return cellAt('court-3', arguments[0]).button.innerText.split('\\n')", hour)
        for hour in (9, 10, 12, 14)
    }
    check(
        found
        == {
            9: ["Yours, 1 person", "Closed"],
            10: ["Closed", "Training der Jugend"],
            12: ["Closed"],
            14: ["2 of 2 free", "300 points"],
        },
        "the day",
        found,
    )
    check(
        page.run("return cellAt('court-3', 12).button.disabled"),
        "a closed slot without a reason can't be pressed",
    )
    page.offer("court-3", 10)
    has(
        page.run("return dialogText()"),
        "the slot's detail",
        "Court 3 (indoor)",
        "10:00 to 11:00",
        "The office closed this slot: Training der Jugend",
        "Questions? Tel. 030 1234",
    )
    page.run("byName('dialog').querySelector('.main').click()")
    check(
        page.run("return document.activeElement === cellAt('court-3', 10).button"),
        "the slot has the focus again",
    )
    page.offer("court-3", 9)
    has(
        page.run("return dialogText()"),
        "her own slot",
        "The office closed this slot: Training der Jugend",
        "The office cancelled your booking because the slot is closed.",
        "Cancel the booking",
    )
    page.press("Back")
    page.view("bookings")
    page.when(
        "byName('to-come').innerText.includes('The office closed this slot: Training der Jugend')",
        "the reason next to the booking",
    )
    page.view("day")
    office("close-slot", "court-3", wanted, "14")
    page.book("court-3", 14)
    page.comes(
        "The office closed this slot: no more. Choose another slot.",
        "a slot that was closed before the press",
    )
    pathlib.Path("club-reasons").unlink()
    pathlib.Path("www/club.json").write_text(good)
    page.cancelled(own["number"], "her own")
    back = next(each["cancel"] for each in page.entries() if each["number"] == own["number"])
    check(back == {"booking": f"lists-1/{own['number']}", "refund": 300}, "the refund", back)
    print(
        "a closed slot shows the reason: in the day, in the dialog, next to a cancelled booking, and after a refused booking"
    )


def looks_six_at_a_time(page, passes, between):
    """When the page loads a day, it sends at most six requests at the same time, and shows its progress. On a narrow screen, the page first requests
    the slots of the facility that the screen shows."""
    page.sees(360, "light", 740)
    page.enter(passes["bob-2"], 4)
    page.run("pressIn(byName('facility-choice'), 'Double scull')")
    page.requests()
    between.most = 0
    between.fates["GET"] = ["slow 0.1"] * CELLS
    page.run("look()")
    page.when(
        f"!byName('progress').hidden && byName('progress').max === {CELLS} && byName('progress').value > 5",
        "progress",
    )
    text = page.run("return shownText('looked')")
    check(re.fullmatch(f"[0-9]+ of {CELLS} loaded", text), "the progress in words", text)
    page.when("dayIsThere()", "the day")
    check(between.most == 6, "requests at once", between.most)
    asked = [
        address.split("/slots/")[1].split("/")[0]
        for method, address in page.requests()
        if "/slots/" in address
    ]
    check(
        len(asked) == CELLS and set(asked[:16]) == {"boat-1"},
        "the shown facility is requested first",
        asked,
    )
    page.sees(1280, "light")
    print("six requests at a time, the shown facility first, with progress")


def swipes(page, passes):
    """A narrow screen shows one facility. The member chooses the facility by its name or by a swipe."""
    page.sees(360, "light", 740)
    page.command("Emulation.setTouchEmulationEnabled", enabled=True)
    page.enter(passes["bob-2"], 4)

    def shows(facility, *what):
        found = page.run(
            "return [...byName('slots').querySelectorAll('td')].filter((each) => each.offsetParent !== null).map((each) => each.dataset.facility)"
        )
        check(
            set(found) == {facility}, "the facility on a narrow screen", *what, facility, set(found)
        )
        pressed = page.run(
            "return [...byName('facility-choice').children].filter((each) => each.getAttribute('aria-pressed') === 'true').map((each) => each.dataset.facility)"
        )
        check(pressed == [facility], "the facility that is marked as chosen", *what, pressed)
        check(not page.run("return isDialogOpen()"), "a swipe presses nothing", *what)

    def drag(across, down, fingers=1):
        page.run("byName('slots').rows[8].scrollIntoView({ block: 'center' })")
        left, top = (300 if across < 0 else 60), 370 - down // 2
        points = [
            [
                {
                    "x": left + across * step / 8 + 20 * finger,
                    "y": top + down * step / 8,
                    "id": finger,
                }
                for finger in range(fingers)
            ]
            for step in range(9)
        ]
        page.command("Input.dispatchTouchEvent", type="touchStart", touchPoints=points[0])
        for each in points[1:]:
            page.command("Input.dispatchTouchEvent", type="touchMove", touchPoints=each)
        page.command("Input.dispatchTouchEvent", type="touchEnd", touchPoints=[])
        time.sleep(0.1)

    shows("court-1", "at first")
    for name, *_ in [*FACILITIES[1:], FACILITIES[-1]]:
        drag(-200, 10)
        shows(name, "swiped to the left")
    for name, *_ in [*FACILITIES[-2::-1], FACILITIES[0]]:
        drag(200, -10)
        shows(name, "swiped to the right")
    for across, down, fingers in [
        (0, 200, 1),
        (0, -200, 1),
        (-30, 0, 1),
        (-150, 120, 1),
        (-200, 0, 2),
    ]:
        drag(across, down, fingers)
        shows("court-1", "no swipe", across, down, fingers)
    page.run("pressIn(byName('facility-choice'), 'Coxed four')")
    shows("boat-2", "chosen")
    inside = page.run(
        "const [bar, chip] = ['facility-choice', 0].map((id) => id ? byName(id).getBoundingClientRect() : document.querySelector('.chip[aria-pressed=true]').getBoundingClientRect());"
        "return chip.left >= bar.left && chip.right <= bar.right"
    )
    check(inside, "the chosen name is visible")
    page.go(day(5))
    shows("boat-2", "another day")
    page.command("Emulation.setTouchEmulationEnabled", enabled=False)
    page.sees(1280, "light")
    print("on a narrow screen, a member chooses a facility by its name or by a swipe")


def looks_again(page, passes):
    """If the member returns to the page after 16 seconds, the page requests the day again. After one second, the page requests nothing."""
    page.enter(passes["bob-2"], 4)
    own = page.driver.current_window_handle

    def goes_away(seconds):
        page.driver.switch_to.new_window("tab")
        time.sleep(seconds)
        page.driver.close()
        page.driver.switch_to.window(own)

    page.run(
        "globalThis.seen = []; document.addEventListener('visibilitychange', () => seen.push(document.visibilityState))"
    )
    number = draw.randrange(1, 10**9)
    curl(
        page,
        "PUT",
        f"/slots/court-3/{day(4)}/14/bookings/{number}",
        passes["other"],
        '{"guests":1}',
    )
    page.requests()
    goes_away(1)
    page.when("seen.length === 2", "a hidden page")
    check(
        page.run("return seen") == ["hidden", "visible"],
        "hidden, and visible again",
        page.run("return seen"),
    )
    time.sleep(1)
    check(
        not [address for _, address in page.requests() if "/slots/" in address],
        "hidden for a moment",
    )
    goes_away(16)
    page.when(
        "seen.length === 4 && dayIsThere() && cellAt('court-3', 14).button.innerText === 'Full'",
        "a change while the page was hidden",
    )
    asked = Counter(address for _, address in page.requests() if "/slots/" in address)
    check(
        len(asked) == CELLS and set(asked.values()) == {1},
        "each slot once",
        len(asked),
        Counter(asked.values()),
    )
    # The page also requests the day again if the member returns to the day from another view.
    curl(page, "DELETE", f"/slots/court-3/{day(4)}/14/bookings/{number}", passes["other"])
    page.view("bookings")
    page.run("lookedAt -= 16000")
    page.view("day")
    page.when(
        "dayIsThere() && cellAt('court-3', 14).button.innerText.includes('2 of 2 free')",
        "the day after another view",
    )
    print("a page that becomes visible after a while requests the day again")


MOVING = """
const times = (text) => text.split(", ").map(parseFloat);
return [...document.querySelectorAll("*")].filter((each) => [null, "::before", "::after", "::backdrop"].some((part) => {
  const { transitionDuration, transitionProperty, animationName, scrollBehavior } = getComputedStyle(each, part);
  return (transitionProperty !== "none" && times(transitionDuration).some((time) => time > 0)) || animationName !== "none" || scrollBehavior === "smooth";
})).length;
"""


def moves_little(page, passes):
    """Nothing moves on the page if the system is set to reduced motion."""
    page.enter(passes["bob-2"], 4)
    page.offer("court-1", 10)
    for wanted in ("no-preference", "reduce"):
        page.command(
            "Emulation.setEmulatedMedia",
            features=[{"name": "prefers-reduced-motion", "value": wanted}],
        )
        check(
            (page.run(MOVING) > 0) == (wanted == "no-preference"),
            "moving elements",
            wanted,
            page.run(MOVING),
        )
    page.open(page.address.replace("book.html", "pass.html"))
    check(page.driver.execute_script(MOVING) == 0, "moving elements on the other page")
    page.command("Emulation.setEmulatedMedia", features=[])
    print("nothing moves with reduced motion")


def leaves_out_what_the_pass_denies(page, passes):
    whole = passes["amy-1"]
    page.enter(narrowed(whole, "kind = court"))
    heads = page.run(
        "return [...byName('slots').querySelectorAll('th.facility')].map((each) => each.textContent)"
    )
    check(
        heads == ["Court 1", "Court 2", "Court 3 (indoor)"],
        "a pass for courts shows no rooms",
        heads,
    )
    page.view("account")
    page.when(
        "byName('account-facts').innerText.includes('Only courts.')",
        "a pass for courts shows no account",
    )
    page.enter(narrowed(whole, "actions = view,book", "hours = 10-12", "guests <= 1"), 4)
    cells = page.run(
        "return [9, 10, 11, 12].map((hour) => cellAt('court-1', hour).button.innerText.split('\\n')[0])"
    )
    check(
        cells == ["Not with your pass", "4 of 4 free", "4 of 4 free", "Not with your pass"],
        "a pass for some hours",
        cells,
    )
    page.offer("court-1", 10)
    page.press("One guest more")
    check(
        page.run("return [...byName('dialog').querySelectorAll('.step-button')][1].disabled"),
        "no more guests than the pass allows",
    )
    page.run("byName('dialog').querySelector('.main').click()")
    page.comes("Booked.", "a booking under a narrowed pass")
    page.view("bookings")
    words = page.run(
        "return [...byName('to-come').querySelectorAll('.booked button')].map((each) => each.textContent)"
    )
    check(
        words and not {"Cancel", "Change"} & set(words),
        "a pass without cancel shows no button to cancel",
        words,
    )
    limits = page.run(
        "byName('to-account').click(); return [...document.querySelectorAll('#pass-limits li span')].map((each) => each.textContent)"
    )
    check(
        limits
        == [
            "The holder may only look at slots or book.",
            "Only slots that begin at 10:00 or later, but before 12:00.",
            "Only bookings with at most 1 guest.",
        ],
        "what a pass allows",
        limits,
    )
    page.enter(narrowed(whole, "actions = view"))
    check(
        page.run("return [...cells.values()].every((cell) => cell.button.disabled)"),
        "a pass for viewing books nothing",
    )
    page.enter(narrowed(whole, "until < 2026-01-01T00:00"))
    text = page.run("return shownText('day-fault')")
    check("Until the end of Wednesday 31 December 2025." in text, "a pass that has ended", text)
    page.enter(narrowed(whole, "actions = book,cancel"), 5)
    check(
        page.run("return cellAt('court-1', 15).button.innerText") == "Book",
        "a pass without viewing can book",
    )
    page.booked("court-1", 15)
    # The page has no button for a request that the pass doesn't allow. If the page can't know whether the pass allows a request, it offers the
    # button, and the desk decides.
    page.enter(narrowed(whole, "spend <= 0"), 5)
    check(
        page.run(
            "return cellAt('court-1', 16).button.disabled && cellAt('court-1', 16).button.innerText.includes('Too many points for your pass')"
        ),
        "no points, and no button",
        page.run("return cellAt('court-1', 16).button.innerText"),
    )
    number = draw.randrange(1, 10**9)
    curl(
        page,
        "PUT",
        f"/slots/court-2/{day(5)}/16/bookings/{number}",
        passes["lists-1"],
        '{"guests":0}',
    )
    page.enter(narrowed(passes["lists-1"], "spend <= 200", "kind = court"), 5)
    page.book("court-1", 16)
    page.when("dialogText().includes('Not booked.')", "a refusal")
    text = page.run("return dialogText()")
    check(
        "Your pass doesn't allow this: At most 200 points in all." in text,
        "the reason in the refusal",
        text,
    )
    page.press("Close")
    curl(page, "DELETE", f"/slots/court-2/{day(5)}/16/bookings/{number}", passes["lists-1"])
    check(not page.run("return isDialogOpen()"), "a closed dialog")
    page.enter(passes["amy-1"])
    same_record(page, "amy-1")
    print("the page hides what a pass excludes, and the desk decides")


def refusals_say_what_to_do(page, passes, between):
    """The page explains each refusal in both languages. The desk sends some refusals, and the test's proxy sends others."""
    page.enter(passes["bob-1"], 6)
    page.booked("court-1", 9)
    page.booked("court-1", 10)
    page.book("court-1", 11)
    page.comes("reached your limit of open bookings", "fault 19")
    page.run("offerCancellation(ownEntries().find(isLive), () => {})")
    page.press("Cancel the booking")
    page.comes("came back", "a cancellation")
    page.book("room-1", 11)
    page.comes("enough points", "fault 20")
    # A slot becomes full or closed after the page has loaded the slot, and before the member presses the button.
    curl(page, "PUT", f"/slots/court-3/{day(6)}/12/bookings/77", passes["other"], '{"guests":1}')
    page.book("court-3", 12)
    page.comes("Not enough places are free any more", "fault 18")
    curl(page, "DELETE", f"/slots/court-3/{day(6)}/12/bookings/77", passes["other"])
    office("close-slot", "court-3", day(6), "13")
    page.book("court-3", 13)
    page.comes("The office closed this slot", "fault 17")
    page.when("cellAt('court-3', 13).button.innerText === 'Closed'", "a slot that was loaded again")
    # If the key has already used the number that the page picks, the page picks another number.
    used = 123456789
    curl(
        page, "PUT", f"/slots/court-2/{day(6)}/12/bookings/{used}", passes["amy-1"], '{"guests":1}'
    )
    curl(page, "DELETE", f"/slots/court-2/{day(6)}/12/bookings/{used}", passes["amy-1"])
    page.enter(passes["amy-1"], 6)
    page.run(
        """const numbers = [arguments[0], 987654321]; state.sender.draw = () => numbers.shift();""",
        used,
    )
    page.book("court-2", 13)
    page.when("dialogText().includes('Booked.')", "a booking after fault 13")
    check(
        "987654321" in page.run("return dialogText()"),
        "another number",
        page.run("return dialogText()"),
    )
    page.press("Close")
    sentences = {}
    for language in ("en", "de"):
        page.run("useWords(WORDS, arguments[0])", language)
        for fault in range(1, 23):
            for action in ("book", "cancel"):
                text = page.run(
                    "return refusalText({ fault: arguments[0], caveat: 1 }, arguments[1])",
                    fault,
                    action,
                )
                check(
                    len(text) > 20 and "{" not in text and "undefined" not in text,
                    "a fault without a sentence",
                    language,
                    fault,
                    text,
                )
                sentences.setdefault(text, []).append((language, fault))
        page.run("useWords(WORDS, 'en')")
    check(
        all(len({fault for _, fault in of}) == 1 for of in sentences.values()),
        "two faults with one sentence",
        sentences,
    )
    # If the desk refuses the pass, the page shows the refusal once for the day, and not in each slot.
    for fault, status, words in [
        (9, 401, "doesn't know this pass"),
        (10, 403, "revoked this pass"),
        (4, 401, "didn't arrive"),
    ]:
        between.fates["GET"] = [f'answer {status} {{"fault":{fault},"text":"x"}}'] * 200
        page.run("showDay()")
        page.when(f"shownText('day-fault').includes(\"{words}\")", "a refused pass", fault)
        between.fates.clear()
    # The page shows a message if the desk is down, busy or slow.
    page.enter(passes["amy-1"])
    for hour, status, body, words in [
        (15, 502, "<html>", "isn't available just now (502)"),
        (16, 504, "<html>", "is taking too long to answer (504)"),
        (17, 503, '{"fault":22,"text":"unavailable"}', "is busy just now (503)"),
    ]:
        between.fates["GET"] = [f"answer {status} {body}"] * 200
        page.view("account")
        page.run("lookAtAccount()")
        page.when(f"shownText('account-facts').includes(\"{words}\")", "the account", status)
        between.fates.clear()
        page.press("Try again", "account-facts")
        page.when("shownText('account-facts').includes('of 99')", "the account again")
        page.view("day")
        page.go(day(6))
        between.fates["PUT"] = [f"answer {status} {body}"] * 50
        page.book("court-2", hour)
        page.when(
            f"dialogText().includes(\"{words}\") && dialogText().includes('The page sends the request again, attempt')",
            "a booking",
            status,
        )
        between.fates.clear()
        page.comes("Booked.", "a booking at last")
        check(
            [place[:3] for place in amounts("amy-1").values()].count(("court-2", day(6), hour))
            == 1,
            "the slot is booked once",
            status,
        )
    print(
        "each of the 22 faults has its own sentence in both languages, and so have 502 and 504; the faults that a member can cause occurred"
    )


def goes_by_keyboard(page, passes):
    page.visit("", "isShown('welcome')", "the page")
    page.sees(1280, "light")

    def tab_to(condition, *what):
        for _ in range(120):
            page.keys(Keys.TAB)
            page.focus_is_seen()
            if page.run(f"const at = document.activeElement; return {condition}"):
                return
        check(False, "not reached by keyboard", *what, condition)

    tab_to("at.id === 'given'")
    page.keys(passes["amy-1"])
    tab_to("at.id === 'keep'")
    tab_to("at.id === 'use'")
    page.keys(Keys.ENTER)
    page.when("isShown('day') && dayIsThere()", "a pass by keyboard")
    tab_to("at.id === 'day-after'")
    for _ in range(15):
        page.keys(Keys.ENTER)
    page.when(f"shownDay() === '{day(15)}' && dayIsThere()", "a day by keyboard")
    tab_to("at === cellAt('boat-1', 6).button")
    page.keys(
        Keys.ARROW_RIGHT,
        Keys.ARROW_DOWN,
        Keys.ARROW_DOWN,
        Keys.ARROW_LEFT,
        Keys.ARROW_LEFT,
        Keys.ARROW_LEFT,
    )
    check(
        page.run("return document.activeElement === cellAt('court-2', 8).button"),
        "arrows",
        page.run("return document.activeElement.getAttribute('aria-label')"),
    )
    page.keys(Keys.ENTER)
    check(
        page.run("return document.activeElement.id") == "dialog-title", "the dialog has the focus"
    )
    tab_to("at.getAttribute('aria-label') === 'One guest more'")
    page.keys(Keys.ENTER)
    tab_to("at.textContent === 'Book for 400 points'")
    page.keys(Keys.ENTER)
    page.when("dialogText().includes('Booked.')", "a booking by keyboard")
    page.when(
        "document.activeElement.textContent === 'Close'",
        "the button that closes the dialog has the focus",
    )
    page.keys(Keys.ENTER)
    check(
        page.run("return document.activeElement === cellAt('court-2', 8).button"),
        "the slot has the focus again",
    )
    page.run("document.body.focus()")
    page.run("byName('to-bookings').focus()")
    page.keys(Keys.ENTER)
    tab_to(
        "at.textContent === 'Cancel' && at.getAttribute('aria-label').startsWith('Cancel Court 2')",
        "the button that cancels",
    )
    page.run("showBookings(() => {})")
    check(
        page.run("return document.activeElement.textContent") == "Cancel",
        "a list that is shown again leaves the focus where it is",
    )
    page.run(
        "document.activeElement.closest('.card').querySelector('.more').open = true; showBookings(() => {})"
    )
    check(
        page.run("return document.activeElement.closest('.card').querySelector('.more').open"),
        "open details stay open",
    )
    page.keys(Keys.ENTER)
    tab_to("at.textContent === 'Cancel the booking'")
    page.keys(Keys.ENTER)
    page.when("dialogText().includes('400 points came back')", "a cancellation by keyboard")
    page.keys(Keys.ESCAPE)
    check(not page.run("return isDialogOpen()"), "Escape closes the dialog")
    print("all steps by keyboard: pass, day, slot, guests, booking, cancellation")


def finds_a_time(page, passes):
    """The search shows when facilities of a kind are free at the chosen hours of a week, and finds the next free time. The page remembers the last
    facility, and hides past hours."""
    page.sees(360, "light", 740)
    page.enter(passes["amy-phone"], 36)
    for name, _, kind, places, *_ in FACILITIES:
        if kind == "court":
            curl(
                page,
                "PUT",
                f"/slots/{name}/{day(36)}/18/bookings/{draw.randrange(1, 10**9)}",
                passes["other"],
                json.dumps({"guests": places - 1}),
            )
    curl(
        page,
        "PUT",
        f"/slots/court-2/{day(37)}/19/bookings/{draw.randrange(1, 10**9)}",
        passes["other"],
        '{"guests":3}',
    )
    page.click("to-find")
    page.when("shownText('find-looked').includes(':')", "a week")
    grid = page.run(
        "return [...byName('find-grid').tBodies[0].rows].map((row) => [...row.cells].slice(1).map((cell) => cell.innerText.trim()))"
    )
    check(
        len(grid) == 7 and grid[0] == ["Full", "10 free"] and grid[1] == ["10 free", "6 free"],
        "the week's courts from 18 to 20",
        grid,
    )
    check(
        page.run("return document.documentElement.scrollWidth <= innerWidth"), "sideways scrolling"
    )
    page.press("Boats", "find-kinds")
    page.when("shownText('find-looked').includes(':')", "another kind")
    grid = page.run(
        "return [...byName('find-grid').tBodies[0].rows].map((row) => [...row.cells].slice(1).map((cell) => cell.innerText.trim()))"
    )
    check(grid[0] == ["6 free", "6 free"], "boats", grid)
    page.press("Courts", "find-kinds")
    for field, hour in (("find-to", "19"), ("find-from", "18")):
        page.run(
            "byName(arguments[0]).value = arguments[1]; byName(arguments[0]).dispatchEvent(new Event('change'))",
            field,
            hour,
        )
    page.when(
        "shownText('find-looked').includes(':') && byName('find-grid').tBodies[0].rows[0].cells.length === 2",
        "one hour",
    )
    page.press("Next free", "find-part")
    page.when(
        f"shownText('find-news').includes('Free: Court 1, {page_date(day(37), year=True)}, 18:00')",
        "the next free time",
        page.run("return shownText('find-news')"),
    )
    page.when("shownText('find-looked').includes(':')", "its week")
    page.run("byName('find-grid').tBodies[0].rows[0].cells[1].firstChild.click()")
    words = page.run(
        "return [...byName('dialog').querySelectorAll('button')].map((each) => each.innerText.trim())"
    )
    check(
        words[1:4]
        == [
            "Court 1 4 of 4 free, 200 points",
            "Court 2 4 of 4 free, 200 points",
            "Court 3 (indoor) 2 of 2 free, 300 points",
        ],
        "the free facilities",
        words,
    )
    page.run("[...byName('dialog').querySelectorAll('button')][2].click()")
    has(
        page.run("return dialogText()"),
        "the slot that was found",
        "Book Court 2",
        "18:00 to 19:00",
        "Book for 200 points",
    )
    page.press("Book for 200 points")
    page.comes("Booked.", "a booking of the slot that was found")
    page.when(
        "byName('find-grid').tBodies[0].rows[0].cells[1].innerText.includes('Yours')",
        "her own place is marked",
    )
    entry = page.entries()[-1]
    page.click("to-find")
    page.when("dayIsThere()", "the day again")
    # The page remembers the last facility and hours, and hides past hours.
    page.visit("", "isShown('welcome') || isShown('day')", "another visit")
    page.enter(passes["amy-phone"])
    check(
        page.run("return document.querySelector('.chip[aria-pressed=true]').dataset.facility")
        == "court-2",
        "the last facility",
    )
    hidden = page.run(
        "return [...byName('slots').tBodies[0].rows].filter((row) => row.hidden).length"
    )
    first = min(opens for *_, opens, _ in FACILITIES)
    check(
        hidden == now().hour + 1 - first and page.run("return isShown('earlier')"),
        "past hours are hidden",
        hidden,
        now().hour,
    )
    page.click("earlier")
    check(
        page.run("return [...byName('slots').tBodies[0].rows].filter((row) => row.hidden).length")
        == 0,
        "past hours are shown",
    )
    page.click("to-find")
    check(
        page.run("return [byName('find-from').value, byName('find-to').value]") == ["18", "19"],
        "the last hours",
    )
    page.click("to-find")
    page.cancelled(entry["number"], "a cancellation of the slot that was found")
    page.sees(1280, "light")
    print(
        "the search shows a week for a kind, and finds the next free time; the page remembers the last facility and hours"
    )
