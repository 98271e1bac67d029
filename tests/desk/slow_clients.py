#!/usr/bin/env -S /usr/bin/python3 -B -m pytest -q -p no:cacheprovider
"""The server disconnects slow clients in time, and clients that send too many bytes still get their
replies.

The clients that come after a slow client get their replies. Some clients send far more than a
request before they read the reply.

The server has a patience, or timeout, of two seconds. One client sends nothing, another sends only
the beginning of its request, and a third sends a byte a second. A fourth client never reads its
reply, and a fifth stays connected after its request. Then clients send 1,000 requests, each
followed by 1 to 100,000 more bytes, and 1,000 heads of 100,000 bytes. Half of these requests and
heads come in two pieces. Then clients send requests in three, four and six pieces, with a
Content-Length or in chunks. During 100 more requests, the test suspends and resumes the server.

Each client sends all its bytes before it reads, as Python's HTTP clients do. A client gives up if
it can't send its bytes. After it refused a request, the server closes the connection once no byte
has come for 200 milliseconds. On a busy machine, a client may be late with a piece. Such a client
may lose its reply, but at most a tenth of the clients may be late.
"""

import itertools
import os
import signal
import socket
import time

import pytest

import desk
from kinds import Row, account, slot

pytestmark = [pytest.mark.faults, pytest.mark.needs("clubdesk")]

PATIENCE, COUNT = 2, 1000
WAIT = 0.2  # the longest time between two pieces
REQUEST = account().data


@pytest.fixture
def patient(club):
    """Returns a function that starts a server for the given number of connections."""
    return lambda count: club.served("--patience", str(PATIENCE), count=count)


def connected(server):
    client = socket.create_connection(("127.0.0.1", server.port), 120)
    client.setsockopt(socket.IPPROTO_TCP, socket.TCP_NODELAY, 1)
    return client


def replied(server, data):
    with connected(server) as client:
        client.sendall(data)
        return desk.read(client)


def is_late(server, pieces, pause, wanted):
    """Sends pieces with a pause between them, and expects the reply. Returns whether a piece was so
    late that the client may have lost the reply."""
    reply, times = None, [time.monotonic()]
    with connected(server) as client:
        try:
            for place, piece in enumerate(pieces):
                time.sleep(pause if place else 0)
                client.sendall(piece)
                times.append(time.monotonic())
            reply = desk.read(client)
        except ConnectionError:
            times.append(time.monotonic())
    late = any(after - before >= WAIT for before, after in itertools.pairwise(times))
    assert late or reply == wanted
    return late


def cut(text, count):
    """Splits the text into `count` pieces."""
    size = (len(text) + count - 1) // count
    return [text[place : place + size] for place in range(0, len(text), size)]


@pytest.mark.parametrize(
    "dawdle, least, most",
    [
        (b"", PATIENCE - 0.2, PATIENCE + 1),
        (REQUEST[:40], PATIENCE - 0.2, PATIENCE + 1),
        # Two clients stay connected after their requests. The server waits a fifth of a second for
        # more bytes.
        (REQUEST, 0, 1),
        (REQUEST + b"x", 0, 1),
    ],
    ids=["silent", "begins its request", "never reads", "stays"],
)
def test_client_behind_one_that_dawdles(patient, dawdle, least, most):
    with patient(2) as server, connected(server) as client:
        began = time.monotonic()
        client.sendall(dawdle)
        assert replied(server, REQUEST) == account().wanted
        assert least <= time.monotonic() - began <= most


def test_client_of_a_byte_a_second_is_cut_off(patient):
    """The server cuts off the client when the server's patience is over, although the client is
    never silent for long."""
    with patient(2) as server:
        with connected(server) as client:
            began = time.monotonic()
            desk.drip(client, REQUEST[: 3 * PATIENCE])
            assert time.monotonic() - began <= PATIENCE + 3
        assert replied(server, REQUEST) == account().wanted


@pytest.mark.parametrize(
    "data_of, wanted",
    [
        (lambda place: REQUEST + b"x" * (1 + place * 99_999 // (COUNT - 1)), account().wanted),
        (
            lambda _: b"GET /account HTTP/1.1\r\nX: " + b"x" * (100_000 - 30) + b"\r\n\r\n",
            Row().gets(1).wanted,
        ),
    ],
    ids=["bytes after requests", "heads of 100,000 bytes"],
)
def test_all_is_sent_before_it_is_read(patient, data_of, wanted):
    with patient(COUNT) as server:
        late = sum(
            is_late(server, cut(data_of(place), 1 + place % 2), 0.002, wanted)
            for place in range(COUNT)
        )
    assert late <= COUNT // 10


@pytest.mark.parametrize("count", [3, 4, 6])
def test_requests_in_pieces(patient, count):
    """Tries a body with a length, a body that arrives after its head, a body in chunks, and a body
    that is too long."""
    row = Row(
        "PUT", slot(facility="court-2") + "/bookings/7", '{"guests":' + " " * 240 + "0}"
    ).gets(14)
    head, body = row.data.partition(b"\r\n\r\n")[0] + b"\r\n\r\n", row.body.encode()
    without = b"\r\n".join(
        line for line in head.split(b"\r\n") if not line.startswith(b"Content-Length")
    )
    chunks = (
        b"".join(b"%x\r\n%s\r\n" % (len(part), part) for part in cut(body, count)) + b"0\r\n\r\n"
    )
    bad = Row().gets(1).wanted
    sent = [
        (cut(row.data, count), row.wanted),
        ([head, *cut(body, count - 1)], row.wanted),
        ([without[:-2] + b"Transfer-Encoding: chunked\r\n\r\n", *cut(chunks, count - 1)], bad),
        (cut(without[:-2] + b"Content-Length: 1000\r\n\r\n" + b"x" * 1000, count), bad),
    ]
    with patient(4 * 200) as server:
        late = sum(
            is_late(server, pieces, pause, wanted)
            for pause in 50 * (0.001, 0.005, 0.02, 0.05)
            for pieces, wanted in sent
        )
    assert late <= 4 * 200 // 10


def test_server_that_is_stopped_and_goes_on(patient):
    """In the middle of each of 100 requests, the test suspends and resumes the server."""
    with patient(100) as server:
        for _ in range(100):
            with connected(server) as client:
                client.sendall(REQUEST[:40])
                for number in (signal.SIGSTOP, signal.SIGCONT):
                    time.sleep(0.01)
                    os.kill(server.process.pid, number)
                time.sleep(0.01)
                client.sendall(REQUEST[40:])
                assert desk.read(client) == account().wanted
