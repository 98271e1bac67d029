"""Tests the values of a club's configuration, and writes the configuration of a lost club anew.

A configuration that comes from the place of the copies is data, because nobody knows who wrote it. It would reach the environment of services and the
configuration of a proxy. So only settings with known names and tested values are written. Files get fixed places, and nothing names a program."""

import os
import re
import socket
from collections.abc import Callable

from club_office.clubs import clubs_of, is_beside, settings, settings_of
from club_office.faults import Fault, bad_value, refusal
from club_office.page import PICTURES, rule_of, setting_of
from club_office.texts import say
from club_office.values import name, number

HOME, PAGES = "/var/lib/clubdesk", "/var/www"
MOST_TITLE = 60
PORTS = range(8080, 9000)
# A value with one of these characters could end the value in a service's configuration, or name a variable.
SPECIAL = re.compile(r"[\"\\$`]")
RULE = re.compile(r"(<[A-Za-z0-9+-]{3,10}>|[A-Za-z]{3,10})[+-]?[0-9][A-Za-z0-9<>+,./:-]{0,80}")


# ---- Tests of values. Each function returns the value, or raises a fault.


def title(text: str) -> str:
    if not text or not text.isprintable() or len(text) > MOST_TITLE or re.search(r'["\\]', text):
        raise bad_value("no club title", text=text, most=MOST_TITLE)
    return text


def domain(text: str) -> str:
    if not re.fullmatch(
        r"(?=.{1,200}$)[a-z0-9]([a-z0-9-]*[a-z0-9])?(\.[a-z0-9]([a-z0-9-]*[a-z0-9])?)+", text
    ):
        raise bad_value("no domain", text=text)
    return text


def site(text: str) -> str:
    domain(text.removeprefix("https://").rstrip("/"))
    return "https://" + text.removeprefix("https://").rstrip("/")


def user(text: str) -> str:
    if not re.fullmatch(r"[a-z_][a-z0-9_-]{0,30}", text):
        raise bad_value("no user name", text=text)
    return text


def mail(text: str) -> str:
    if text and not re.fullmatch(r"[^@\s\"'\\]+@[A-Za-z0-9.-]+", text):
        raise bad_value("no mail address of", text=text)
    return text


def plain(text: str) -> str:
    """Refuses a character that has a meaning in the configuration of a service."""
    if SPECIAL.search(text):
        raise bad_value("special setting")
    return text


def zone(text: str) -> str:
    rule_of(text)
    return text


def numbered(least: int, most: int) -> Callable[[str], str]:
    return lambda text: str(number(least, most)(text))


# The settings that a lost club's configuration may have, each with its test.
TESTS: dict[str, Callable[[str], str]] = {
    "title": title,
    "site": site,
    "zone_name": zone,
    "sheet_hour": numbered(0, 23),
    "spares": numbered(0, 9),
    "spare_name": name,
    "mail": mail,
    "contact": lambda text: setting_of("contact", text),
    "imprint": lambda text: setting_of("imprint", text),
    "privacy": lambda text: setting_of("privacy", text),
}


# ---- A port.


def free_port(folder: str, wanted: str = "") -> int:
    """Returns the wanted port, or else the lowest port from 8080 on, that no club uses and no program listens on."""
    taken = {settings(os.path.join(folder, f"{it}.conf")).get("port") for it, _ in clubs_of(folder)}
    first = [int(wanted)] if re.fullmatch("[0-9]{4,5}", wanted) and 1024 <= int(wanted) else []
    for port in [*(it for it in first if it < 65536), *PORTS]:
        with socket.socket() as it:
            if str(port) not in taken and it.connect_ex(("127.0.0.1", port)):
                return port
    raise refusal("no port free", first=PORTS[0], last=PORTS[-1])


def refuse_twin(club: str, folder: str) -> None:
    """Refuses a club whose files would have the names of another club's files."""
    file = os.path.join(HOME, club)
    for other, path in clubs_of(folder):
        if other != club and (file == path or is_beside(file, path) or is_beside(path, file)):
            raise refusal("files of one name", club=other, path=path)


# ---- A configuration that is written anew.


class Anew:
    """The settings of a lost club that are written anew, and the reasons why other settings are left out."""

    def __init__(self, data: bytes, club: str, place: str, folder: str):
        self.club, self.place, self.folder = club, place, folder
        self.was = settings_of(data.decode(errors="replace").split("\n"))
        self.found: dict[str, str] = {}
        self.left: list[str] = []
        self.found["file"] = os.path.join(HOME, club)
        self.found["zone"] = self.rule()
        self.found["port"] = str(free_port(folder, self.was.get("port", "")))
        for what, value in self.was.items():
            if what in TESTS:
                self.test(what, value)
            elif what not in (*self.fixed(), "file", "zone", "port"):
                self.left.append(say("setting unknown", what=what.upper(), value=value))
        self.found |= {what: it for what, it in self.fixed().items() if self.was.get(what) and it}
        # A book in a file goes with the copies.
        self.found["book"] = self.fixed()["book"]

    def rule(self) -> str:
        """Returns the rule of the club's time zone on this machine. Without the zone's name, returns the rule in the configuration."""
        if self.was.get("zone_name"):
            return rule_of(self.was["zone_name"])
        rule = self.was.get("zone") or "UTC0"
        if not RULE.fullmatch(rule):
            raise refusal("no zone name", zone=rule)
        return rule

    def test(self, what: str, value: str) -> None:
        try:
            self.found[what] = TESTS[what](plain(value))
        except Fault as fault:
            self.left.append(say("setting left", what=what.upper(), value=value, why=fault.why))

    def fixed(self) -> dict[str, str]:
        """Returns the settings that don't depend on the value in the configuration."""
        kind = os.path.splitext(self.was.get("logo", ""))[1].lower()
        return {
            "pages": os.path.join(PAGES, self.club),
            "titles": os.path.join(self.folder, f"{self.club}.titles"),
            "logo": os.path.join(self.folder, f"{self.club}.logo{kind}")
            if kind in PICTURES
            else "",
            "book": os.path.join(HOME, f"{self.club}-book"),
            "offsite": self.place,
        }

    def text(self) -> str:
        lines = [
            f"{what.upper()}={it}"
            if re.fullmatch(r"[A-Za-z0-9@_+:,./<>-]*", it)
            else f'{what.upper()}="{it}"'
            for what, it in self.found.items()
        ]
        return "\n".join([say("configuration anew", place=self.place), *lines, ""])
