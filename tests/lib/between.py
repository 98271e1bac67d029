"""A proxy between a client and the desk. The proxy makes some requests fail. client_survives.py and
page_books.py use this proxy."""

import contextlib
import re
import socket
import threading
import time

import desk

# The ways in which a request can fail. In each case the client doesn't get the desk's complete
# reply, although the desk may have carried out the request.
FAILURES = [
    "silent",
    "answer 502 <html>bad gateway</html>",
    "answer 504 <html>gateway timeout</html>",
    "answer 200 <html>a page</html>",
    'answer 500 {"error":"proxy"}',
    'answer 503 {"fault":22,"text":"unavailable"}',
    "swallowed",
    "head-cut",
    "body-cut",
]
CUT_AT = {"swallowed": 0, "head-cut": 40, "body-cut": -5}  # where the desk's reply is cut


def request_from(client):
    """Reads the head of a request, and then the body. The head states the length of the body."""
    with client.makefile("rb") as come:
        head = b"".join(iter(come.readline, b"\r\n")) + b"\r\n"
        length = re.search(rb"(?i)content-length: (\d+)", head)
        return head + come.read(int(length[1]) if length else 0)


class Between:
    """Forwards connections to the desk. For each method, `fates` lists how the next requests with
    this method fail, in order. `most` is the greatest number of simultaneous connections so far."""

    def __init__(self, desk_port):
        self.desk_port, self.fates = desk_port, {}
        self.here = self.most = 0
        self.counting = threading.Lock()
        self.listener = socket.create_server(("127.0.0.1", 0), backlog=200)
        self.port = self.listener.getsockname()[1]
        threading.Thread(target=self.listen, daemon=True).start()

    def listen(self):
        while True:
            client, _ = self.listener.accept()
            threading.Thread(target=self.serve, args=[client], daemon=True).start()

    def serve(self, client):
        with contextlib.suppress(OSError), client, self.counted():
            request = request_from(client)
            waiting = self.fates.get(request.split()[0].decode(), [])
            self.fulfil(client, request, waiting.pop(0) if waiting else "reply")

    @contextlib.contextmanager
    def counted(self):
        with self.counting:
            self.here += 1
            self.most = max(self.most, self.here)
        try:
            yield
        finally:
            with self.counting:
                self.here -= 1

    def fulfil(self, client, request, fate):
        kind, _, detail = fate.partition(" ")
        if kind == "answer":
            status, body = detail.split(" ", 1)
            client.sendall(
                f"HTTP/1.1 {status} X\r\nContent-Length: {len(body)}\r\nConnection:"
                f" close\r\n\r\n{body}".encode()
            )
        elif kind != "silent":
            time.sleep(float(detail) if kind == "slow" else 0)
            reply = desk.exchange(self.desk_port, request) or b""
            time.sleep(
                float(detail) if kind == "late" else 0
            )  # the desk carries out the request, but the reply comes late
            client.sendall(reply[: CUT_AT.get(kind)])
