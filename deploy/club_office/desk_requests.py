"""Sends requests to a club's desk. The office makes a pass for each request. The pass allows only this request, and only for five minutes. The office
sends the pass only to a server of the desk's user, because any user of the machine can take a free port."""

import collections
import contextlib
import http.client
import json
import os
import socket
import sys
import time

from club_office.clubs import Club, clock
from club_office.faults import refusal, storage_failed
from club_office.passes import pass_of
from club_office.texts import in_language
from club_office.values import date_of, moment, moment_text

# The number of seconds that the office waits for the desk's reply, and the number of tries.
PATIENCE = 15
TRIES = 5
# A pass for a request is valid for this number of minutes.
MINUTES = 5
MOST_REPLY = 100_000
CONNECTIONS = ("/proc/net/tcp", "/proc/net/tcp6")
# In CONNECTIONS, an address of IPv4 may have this prefix of IPv6.
IN_IPV6 = "0000000000000000FFFF0000"
# States of a connection in CONNECTIONS.
ESTABLISHED, LISTENING = "01", "0A"

Slot = collections.namedtuple("Slot", "facility day hour")
# A line of CONNECTIONS. The uid of a connection that no program has accepted yet is 0, and its inode is 0.
Connection = collections.namedtuple("Connection", "here there state uid inode")


def path_of(slot: Slot, number: int | None = None) -> str:
    path = f"/slots/{slot.facility}/{date_of(slot.day)}/{slot.hour:02d}"
    return path if number is None else f"{path}/bookings/{number}"


def narrowed(key: str, root: bytes, action: str, slot: Slot, *more: str) -> str:
    """Returns a key's pass that allows one action in one slot, for five minutes. `more` are further caveats."""
    day = date_of(slot.day)
    return pass_of(
        key,
        root,
        f"actions = {action}",
        f"facility = {slot.facility}",
        f"days = {day}..{day}",
        f"hours = {slot.hour:02d}-{slot.hour + 1:02d}",
        f"until < {moment_text(soon())}",
        *more,
    )


def soon() -> int:
    """Returns the minute of the club's clock in five minutes. If the clock is set back in the meantime, returns the later of the two minutes."""
    later = time.strftime("%Y-%m-%dT%H:%M", time.localtime(time.time() + 60 * MINUTES))
    return max(clock() + MINUTES, moment(later))


# ---- The owner of the port.


def connections() -> list[Connection]:
    found = []
    for path in CONNECTIONS:
        with contextlib.suppress(FileNotFoundError), open(path, encoding="ascii") as lines:
            next(lines)
            found += [line.split() for line in lines]
    return [Connection(*map(shorter, it[1:3]), it[3], int(it[7]), int(it[9])) for it in found]


def shorter(address: str) -> str:
    """Returns an address of CONNECTIONS in the form of IPv4, if it stands for an address of IPv4 or for all addresses."""
    host, _, port = address.partition(":")
    return f"{host.removeprefix(IN_IPV6) if host.strip('0') else '0' * 8}:{port}"


def address_of(host: str, port: int) -> str:
    """Returns an address in the form of CONNECTIONS."""
    return f"{int.from_bytes(socket.inet_aton(host), sys.byteorder):08X}:{port:04X}"


def server_of(client: socket.socket) -> int | None:
    """Returns the user id of the server at the other end of a connection on this machine. Returns None if the server has closed the connection."""
    here, there = address_of(*client.getsockname()), address_of(*client.getpeername())
    found = connections()
    ends = [it for it in found if (it.here, it.there, it.state) == (there, here, ESTABLISHED)]
    if ends and ends[0].inode:
        return ends[0].uid
    anywhere = address_of("0.0.0.0", client.getpeername()[1])
    listening = {it.here: it.uid for it in found if it.state == LISTENING}
    return listening.get(there, listening.get(anywhere)) if ends else None


def refuse_stranger(club: Club, client: socket.socket) -> None:
    """Refuses to send a pass to a server of another user. The desk's user, the owner of the club's folder and root may run the server."""
    uid = server_of(client)
    if uid is None:
        raise ConnectionError(f"nobody listens at port {club.port}")
    if uid not in (0, os.geteuid(), os.stat(os.path.dirname(club.file)).st_uid):
        raise storage_failed("port of another", port=club.port, uid=uid)


# ---- Requests.


def asked(club: Club, method: str, path: str, text: str, body: str | None = None) -> tuple:
    """Returns the status and body of the desk's reply. Retries if the desk is restarting. The desk never carries out the same request twice."""
    failed = None
    for _ in range(TRIES):
        client = http.client.HTTPConnection("127.0.0.1", club.port, timeout=PATIENCE)
        try:
            client.connect()
            refuse_stranger(club, client.sock)
            client.request(method, path, body, {"Authorization": f"Bearer {text}"})
            reply = client.getresponse()
            found = reply.status, dict(json.loads(reply.read(MOST_REPLY)))
            if found[0] < 500:
                return found
            failed = found[1].get("text")
        except (OSError, http.client.HTTPException, ValueError, TypeError) as failure:
            failed = failure
        finally:
            client.close()
        time.sleep(0.5)
    raise storage_failed("desk silent", port=club.port, fault=failed)


def refuse_failed(found: tuple) -> None:
    """Raises a refusal with the reply's text, unless the reply has status 200."""
    status, body = found
    if status != 200:
        raise refusal("desk says", text=in_language(str(body.get("text"))))
