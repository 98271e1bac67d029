"""Installs a club's site in nginx, or in caddy if only caddy is installed. Each function returns the commands that root must still run."""

import contextlib
import difflib
import hashlib
import os
import re

from club_office.faults import refusal
from club_office.steps import run, said, written
from club_office.texts import say

SITES = "/etc/nginx/sites-available"
CADDY = "/etc/caddy/Caddyfile"
CHALLENGE = "/var/www/challenge"
# The greatest number of printed lines that differ from the package's example.
MOST_LINES = 40


def make_site(club: str, found: dict[str, str], docs: str, again: str) -> list[str]:
    """`found` has the club's settings, `docs` is the folder of the examples, and `again` is the command that finishes the set-up."""
    refuse_unfit(found)
    if os.path.isdir(SITES):
        return make_nginx_site(club, found, docs, again)
    if os.path.isdir(os.path.dirname(CADDY)):
        return make_caddy_site(club, found, docs)
    return ["apt-get install nginx certbot", again]


def refuse_unfit(found: dict[str, str]) -> None:
    """Refuses settings that would mean something else in a proxy's configuration."""
    for what, form in (
        ("site", r"https://[a-z0-9.-]+(:[0-9]{1,5})?"),
        ("pages", r"/[A-Za-z0-9._/-]+"),
        ("port", r"[0-9]{1,5}"),
    ):
        if not re.fullmatch(form, found.get(what, "")):
            raise refusal("unfit setting", what=what.upper(), value=found.get(what, ""))


def make_nginx_site(club: str, found: dict[str, str], docs: str, again: str) -> list[str]:
    """Writes nginx's configuration of the site, and enables the site if its certificate exists."""
    host = found["site"].removeprefix("https://")
    live = f"/etc/letsencrypt/live/{host}"
    with open(os.path.join(docs, "nginx.conf"), encoding="utf-8") as file:
        text = file.read()
    for old, new in (
        ("zone=clubdesk", f"zone={club}"),
        ("desk.example.org", host),
        ("/var/www/club", found["pages"]),
        (":8080", f":{found['port']}"),
        ("/etc/ssl/clubdesk/certificate.pem", f"{live}/fullchain.pem"),
        ("/etc/ssl/clubdesk/key.pem", f"{live}/privkey.pem"),
    ):
        text = text.replace(old, new)
    site, challenge = os.path.join(SITES, club), os.path.join(SITES, "challenge")
    if not written(site, text):
        tell_old_lines(site, text)
    os.makedirs(CHALLENGE, 0o755, exist_ok=True)
    with open(os.path.join(docs, "nginx-challenge.conf"), encoding="utf-8") as file:
        written(challenge, file.read())
    enable(challenge)
    if os.path.exists(f"{live}/fullchain.pem"):
        return reloaded("nginx") if enable(site) else []
    return [
        "rm -f /etc/nginx/sites-enabled/default",
        "nginx -t && systemctl reload nginx",
        f"certbot certonly --webroot --webroot-path {CHALLENGE} --domain {host} --deploy-hook 'systemctl reload nginx'",
        again,
    ]


def tell_old_lines(path: str, text: str) -> None:
    """Prints the lines of an existing site that differ from the package's example, such as after an upgrade."""
    with open(path, encoding="utf-8", errors="replace") as file:
        there = file.read().splitlines()
    lines = [
        it
        for it in difflib.unified_diff(there, text.splitlines(), n=0, lineterm="")
        if not it.startswith(("---", "+++", "@@"))
    ]
    if lines:
        said(say("old lines", path=path, count=len(lines)), None)
        print(*(f"      {it}" for it in lines[:MOST_LINES]), sep="\n")


def make_caddy_site(club: str, found: dict[str, str], docs: str) -> list[str]:
    """Installs caddy's site. Replaces the Caddyfile of Debian's package, but keeps a Caddyfile that somebody has changed."""
    clubs = os.path.join(os.path.dirname(CADDY), "clubs")
    os.makedirs(clubs, 0o755, exist_ok=True)
    site = os.path.join(clubs, f"{club}.caddy")
    is_new = not os.path.lexists(site)
    host = found["site"].removeprefix("https://")
    written(site, f"{host} {{\n\timport desk {found['port']} {found['pages']}\n}}\n")
    with open(os.path.join(docs, "Caddyfile"), encoding="utf-8") as file:
        ours = file.read()
    with contextlib.suppress(FileNotFoundError), open(CADDY, "rb") as file:
        there = file.read()
        if there == ours.encode():
            said(CADDY, False)
            return reloaded("caddy") if is_new else []
        if not is_shipped(there):
            return [
                f"cp {os.path.join(docs, 'Caddyfile')} {CADDY}    # or add the lines of this file to your Caddyfile",
                "systemctl reload caddy",
            ]
        os.unlink(CADDY)
    written(CADDY, ours)
    return reloaded("caddy")


def is_shipped(text: bytes) -> bool:
    """Returns whether a Caddyfile is the file of Debian's package."""
    line = ("dpkg-query", "--show", "--showformat=${Conffiles}", "caddy")
    digest = hashlib.md5(text, usedforsecurity=False).hexdigest()
    return f"{CADDY} {digest}" in run(*line, may_fail=True).stdout.decode()


def reloaded(proxy: str) -> list[str]:
    """Reloads a running proxy if the proxy accepts its sites. In all other cases, returns the commands that root must still run."""
    tests = {
        "nginx": ["nginx", "-t"],
        "caddy": ["caddy", "validate", "--adapter", "caddyfile", "--config", CADDY],
    }
    tested = run(*tests[proxy], may_fail=True)
    if tested.returncode and proxy == "nginx":
        return ["rm -f /etc/nginx/sites-enabled/default", "nginx -t && systemctl reload nginx"]
    if tested.returncode:
        text = tested.stderr.decode(errors="replace").strip()[-500:]
        raise refusal("caddy refuses", path=CADDY, said=text)
    if (
        os.path.isdir("/run/systemd/system")
        and not run("systemctl", "reload-or-restart", proxy, may_fail=True).returncode
    ):
        said(f"{proxy}, with the site")
        return []
    return [f"systemctl reload-or-restart {proxy}"]


def enable(site: str) -> bool:
    link = os.path.join(os.path.dirname(SITES), "sites-enabled", os.path.basename(site))
    if os.path.lexists(link):
        return False
    os.symlink(os.path.join("..", "sites-available", os.path.basename(site)), link)
    said(link)
    return True
