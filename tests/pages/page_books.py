#!/usr/bin/env -S /usr/bin/python3 -B
"""`web/book.html` books, cancels and lends behind nginx in three browsers, with lost requests, kills and hostile input.

The desk stores its club in a file, and runs behind nginx with TLS and the repository's configuration. The test runs in Debian's chromium. A shorter
part also runs in Firefox and WebKitGTK. The test covers:
- the views of a day, a booking, a cancellation and the account, in English and German
- the limits of a pass, use without a mouse, swipes, at most six requests at the same time, and a member who returns to the page
- requests that get lost in each possible way, and a desk that is killed
- pages, tabs and browsers that the test closes at several points of a request
- 200 bookings and cancellations while the test kills the server 30 times; afterwards the page's list must match the desk's table
- odd passes, an odd or missing club.json, a browser that stores nothing, a wrong clock, and replies that another server sends
- hostile links, lists, messages, stored values and replies; the page makes a change only if the member presses a button
- lending a part of a pass: the page's sentence, the link, the QR code, the receiver's page, and the time that lending takes
- several passes in one browser, and the page without a network
- the transfer of the list of bookings to another device, and the comparison of this list with the points that the desk counts
- the output of deploy/record, deploy/club_json and deploy/letter
- a search for a free time in a week, and a booking that the member changes, repeats, or adds to a calendar
- members who load days at the same time, under the repository's limits of requests
- the hall's screen, names for screen readers, contrasts, widths, and reduced motion
- the page's content security policy: no request goes to another origin, and no foreign script runs
- the time until the page shows a day, and the size of the pages that nginx sends

  tests/pages/page_books.py                  runs all steps
  tests/pages/page_books.py FOLDER [STEP ..]     also saves pictures in FOLDER, and runs only the named steps if there are any
  KILLS=3 BOOKINGS=20 tests/pages/page_books.py ..     kills the server 3 times, not 30, and makes 20 bookings, not 200
"""
# pytestmark = [mark.browser, mark.needs("clubdesk passtool"),
#     mark.wants("openssl sqlite3 nginx-light nodejs qrencode zbar-tools curl tzdata chromium chromium-driver python3-selenium firefox-esr webkit2gtk-driver xvfb")]

import atexit
import json
import pathlib
import sys
from pathlib import Path

sys.path[:0] = [str(Path(__file__).resolve().parents[1] / it) for it in ("lib", "")]
import desk
from between import Between
from booking_page import (
    BookingPage,
    DESK,
    FACILITIES,
    RULE,
    Server,
    TOP,
    club_list,
    make_club,
    printed,
    start_proxy,
    totals_are_sums,
)
from books_days import (
    books_and_cancels,
    day_says_what_is,
    finds_a_time,
    goes_by_keyboard,
    leaves_out_what_the_pass_denies,
    looks_again,
    looks_six_at_a_time,
    moves_little,
    refusals_say_what_to_do,
    says_why_it_is_closed,
    swipes,
)
from books_devices import (
    at_hand,
    cancelled_by_the_office,
    devices,
    does_more_with_bookings,
    letters,
    rotations,
    tells_what_is_missing,
)
from books_failures import (
    broken_browsers,
    browser_ends,
    clocks,
    days_at_once,
    is_quick_and_small,
    lists_what_is_past,
    offline,
    pages_end,
    survives_failures,
    survives_kills,
    tabs_send_nothing_twice,
    waits_as_the_proxy_wants,
    writes_before_it_sends,
)
from books_hostile import (
    keeps_each_pass,
    lists_send_nothing,
    nothing_by_itself,
    odd_clubs,
    odd_passes,
)
from books_lending import club_to_try, lends, lends_in_a_minute
from books_looks import (
    hall_screen,
    large_letters,
    looks_right,
    on_three_phones,
    other_engines,
    shows_the_club,
)
from page_browser import check, policy_holds


def main():
    printed(
        *"openssl req -x509 -newkey rsa:2048 -nodes -days 2 -subj /CN=desk.example.org -addext subjectAltName=DNS:desk.example.org"
        " -keyout key.pem -out certificate.pem".split()
    )
    printed(f"{TOP}/bin/pages", "--to", "www")
    policy_holds(
        pathlib.Path("www/book.html"),
        {
            "connect-src": "'self'",
            "worker-src": "'self'",
            "manifest-src": "'self'",
            "trusted-types": "worker",
        },
        "new Function|sendBeacon",
        "pass.html",
        "app.webmanifest",
    )
    passes = make_club()
    listed = club_list("".join(f"{name} {title}\n" for name, title, *_ in FACILITIES if title))
    pathlib.Path("www/club.json").write_text(listed)
    names = [
        (each["name"], each.get("title"), each["kind"], each["opens"], each["shuts"])
        for each in json.loads(listed)["facilities"]
    ]
    check(
        names
        == [
            (name, title, kind, opens, shuts)
            for name, title, kind, _, _, opens, shuts in FACILITIES
        ],
        "club.json",
        names,
    )
    server = Server(DESK, "club", None, "--zone", RULE, "--log", port=desk.free_port()).start()
    atexit.register(server.kill)
    between = Between(server.port)
    front = start_proxy(between.port)
    only = sys.argv[2:]

    def wanted(check_function):
        return not only or check_function.__name__ in only

    def one_browser(*steps):
        if not any(wanted(step) for step, *_ in steps):
            return
        with BookingPage(front) as page:
            for step, *words in steps:
                if wanted(step):
                    step(page, *words)
            others = [
                address
                for _, address in page.requests()
                if not address.startswith(
                    (page.address.rsplit("/", 1)[0], "about:", "data:", "blob:")
                )
            ]
            check(not others, "the page requests", others)
            complaints = page.complaints()
            check(not complaints, "the console says", complaints)

    one_browser(
        (books_and_cancels, passes),
        (day_says_what_is, passes),
        (says_why_it_is_closed, passes, server),
        (leaves_out_what_the_pass_denies, passes),
    )
    one_browser((refusals_say_what_to_do, passes, between))
    one_browser(
        (looks_six_at_a_time, passes, between),
        (swipes, passes),
        (looks_again, passes),
        (moves_little, passes),
    )
    for step, *words in [
        (survives_failures, passes, between),
        (pages_end, passes, between, server),
        (tabs_send_nothing_twice, passes, between, server),
        (lists_send_nothing, passes, server),
        (nothing_by_itself, passes, between, server),
        (keeps_each_pass, passes),
        (finds_a_time, passes),
        (does_more_with_bookings, passes, between),
        (shows_the_club, passes),
        (goes_by_keyboard, passes),
        (odd_passes, passes),
        (odd_clubs, passes),
        (offline, passes),
    ]:
        one_browser((step, *words))
    for step, *words in [
        (letters,),
        (writes_before_it_sends, front),
        (lists_what_is_past, front),
        (browser_ends, front, between),
        (broken_browsers, front, server),
        (clocks, front),
        (rotations, front, between),
        (devices, front, server),
        (large_letters, front),
        (other_engines, server),
        (lends_in_a_minute, server),
        (lends, front, between),
        (at_hand, server),
        (tells_what_is_missing, front),
        (days_at_once, server),
        (cancelled_by_the_office, front, server),
        (survives_kills, front, server),
        (is_quick_and_small, start_proxy(server.port)),
        (waits_as_the_proxy_wants, start_proxy(server.port, rate=3, burst=10)),
        (looks_right, front),
        (on_three_phones, front),
        (hall_screen, front, server),
    ]:
        if wanted(step):
            step(passes, *words)
    if wanted(club_to_try):
        club_to_try()
    totals_are_sums()
    print("the page books")


main()
