#!/usr/bin/env -S /usr/bin/python3 -B -m pytest -q -p no:cacheprovider
"""nginx and caddy, configured as in deploy/, limit and forward requests as docs/INSTALL.md says.

A stub takes the desk's place. The stub replies with the request that reached it. nginx takes a
client's address from the field X-Address, so that one machine can act as many clients.
"""

import http.client
import re
import shutil
import socket
import socketserver
import ssl
import subprocess
import threading
import time
from collections import Counter

import pytest

import desk

pytestmark = [pytest.mark.package, pytest.mark.wants("nginx-light caddy openssl")]

HOST = "desk.example.org"
BURST, RATE = 2_000, 400
SECONDS_TO_START = 20


class Stub(socketserver.StreamRequestHandler):
    """Reads a request, and replies with the bytes of the request. Reads a body in chunks as well,
    which the real desk refuses."""

    timeout = 5

    def handle(self):
        head = b"".join(iter(self.rfile.readline, b"\r\n"))
        length = re.search(rb"(?i)^content-length: (\d+)\r$", head, re.MULTILINE)
        body = self.rfile.read(int(length[1])) if length else b""
        if b"chunked" in head.lower():
            body = b"".join(iter(self.rfile.readline, b"0\r\n"))
        told = head + b"\r\n" + body
        self.wfile.write(b"HTTP/1.1 200 OK\r\nContent-Length: %d\r\n\r\n%s" % (len(told), told))


@pytest.fixture(scope="module")
def stub():
    """Returns the port of the stub of a desk."""
    with socketserver.ThreadingTCPServer(("127.0.0.1", 0), Stub) as server:
        threading.Thread(target=server.serve_forever, daemon=True).start()
        yield server.server_address[1]
        server.shutdown()


@pytest.fixture(scope="module")
def room(tmp_path_factory):
    """Returns a folder with the pages, a club's list and a certificate."""
    made = tmp_path_factory.mktemp("proxy")
    (made / "www").mkdir()
    for page in ("pass.html", "demo.html"):
        shutil.copy(desk.ROOT / "web" / page, made / "www" / page)
    (made / "www" / "club.json").write_text("{}\n", encoding="utf-8")
    words = "req -x509 -newkey rsa:2048 -nodes -days 2 -keyout key.pem -out certificate.pem -subj"
    subprocess.run(
        ["openssl", *words.split(), f"/CN={HOST}"], cwd=made, check=True, capture_output=True
    )
    return made


def replaced(text, *pairs):
    for old, new in pairs:
        assert old in text, old
        text = text.replace(old, new)
    return text


def started(words, port):
    """Runs a proxy until it listens at the port, and yields. Then ends the proxy."""
    process = subprocess.Popen(words, stdout=subprocess.DEVNULL, stderr=subprocess.DEVNULL)
    try:
        for _ in range(SECONDS_TO_START * 10):
            assert process.poll() is None, words
            with socket.socket() as tried:
                if tried.connect_ex(("127.0.0.1", port)) == 0:
                    break
            time.sleep(0.1)
        yield port
    finally:
        process.terminate()
        process.wait()


@pytest.fixture(scope="module")
def nginx(room, stub):
    """Runs nginx with the repository's configuration, and returns its port."""
    port = desk.free_port()
    site = replaced(
        (desk.ROOT / "deploy" / "nginx.conf").read_text(encoding="utf-8"),
        ("/etc/ssl/clubdesk/", f"{room}/"),
        ("/usr/share/clubdesk/web", f"{room}/www"),
        ("/var/www/club;", f"{room}/www;"),
        (":8080", f":{stub}"),
        ("    listen [::]:443 ssl http2;\n", ""),
        ("listen 443", f"listen 127.0.0.1:{port}"),
    )
    (room / "site").write_text(site, encoding="utf-8")
    addresses = "set_real_ip_from 127.0.0.1; real_ip_header X-Address;"
    (room / "nginx.conf").write_text(
        f"user root;\npid {room}/pid;\nerror_log {room}/error.log;\nevents {{}}\n"
        f"http {{ {addresses} include {room}/site; }}\n",
        encoding="utf-8",
    )
    yield from started(["nginx", "-c", room / "nginx.conf", "-g", "daemon off;"], port)


@pytest.fixture(scope="module")
def caddy(room, stub):
    """Runs caddy with the repository's configuration and its own certificate authority."""
    port = desk.free_port()
    options = f"\tlocal_certs\n\tskip_install_trust\n\tadmin off\n\thttps_port {port}\n"
    storage = f"\tstorage file_system {room}/caddy\n"
    (room / "Caddyfile").write_text(
        replaced(
            (desk.ROOT / "deploy" / "Caddyfile").read_text(encoding="utf-8"),
            (
                "\tauto_https disable_redirects\n",
                f"\tauto_https disable_redirects\n{options}{storage}",
            ),
            ("/usr/share/clubdesk/web", f"{room}/www"),
        ),
        encoding="utf-8",
    )
    (room / "clubs").mkdir()
    (room / "clubs" / "club.caddy").write_text(
        f"{HOST} {{\n\timport desk {stub} {room}/www\n}}\n", encoding="utf-8"
    )
    words = ["caddy", "run", "--adapter", "caddyfile", "--config", room / "Caddyfile"]
    yield from started(words, port)


class Client(http.client.HTTPSConnection):
    """A connection to the proxy at a port of this machine, under the site's name."""

    def __init__(self, port):
        context = ssl.create_default_context()
        context.check_hostname, context.verify_mode = False, ssl.CERT_NONE
        super().__init__(HOST, port, timeout=30, context=context)

    def connect(self):
        plain = socket.create_connection(("127.0.0.1", self.port), self.timeout)
        self.sock = self._context.wrap_socket(plain, server_hostname=HOST)

    def asks(self, method, path, body=None, **fields):
        """Returns the status and the body of a reply."""
        named = {name.replace("_", "-"): value for name, value in fields.items()}
        self.request(method, path, body, named)
        reply = self.getresponse()
        return reply.status, reply.read().decode("latin-1")


def flood(port, count, address, spelled):
    """Sends requests from an address. `spelled` returns the field Authorization of each request.
    Returns the number of replies with each status, and the seconds."""
    client, found, begun = Client(port), Counter(), time.monotonic()
    for number in range(count):
        fields = {"X_Address": address(number), "Authorization": spelled(number)}
        found[client.asks("GET", "/club.json", **fields)[0]] += 1
    client.close()
    return found, time.monotonic() - begun


def in_other_case(number):
    """Returns `bearer` in letters of a case that the number chooses, and a pass."""
    letters = (
        letter.upper() if number >> place & 1 else letter for place, letter in enumerate("bearer")
    )
    return f"{''.join(letters)} AgEJY2x1"


SPELLINGS = {
    "one pass": lambda number: "Bearer AgEJY2x1",
    "a pass in other letters": in_other_case,
    "another pass each time": lambda number: f"Bearer AgEJY2x1{number:06}",
}


@pytest.mark.parametrize("spelling", SPELLINGS)
def test_an_address_has_one_limit(nginx, spelling):
    """The limit is the same, however the requests spell their pass."""
    address = f"192.0.2.{1 + list(SPELLINGS).index(spelling)}"
    found, seconds = flood(nginx, 3000, lambda _: address, SPELLINGS[spelling])
    assert BURST <= found[200] <= BURST + 1 + RATE * seconds
    assert found[429] == 3000 - found[200]


def test_no_client_fills_the_limits_of_others(nginx):
    """One address sends the longest fields, each another one. Other addresses keep their limit."""
    flood(nginx, 1900, lambda _: "192.0.2.11", lambda number: f"Bearer {number:08}{'A' * 8000}")
    for number in range(20):
        fields = {"X_Address": f"192.0.2.{20 + number}", "Authorization": f"Bearer {'B' * 8000}"}
        assert Client(nginx).asks("GET", "/club.json", **fields)[0] == 200


def test_a_network_of_ipv6_counts_as_one_address(nginx):
    spelled = SPELLINGS["one pass"]
    found, seconds = flood(nginx, 3000, lambda number: f"2001:db8::{number:x}:1", spelled)
    assert BURST <= found[200] <= BURST + 1 + RATE * seconds
    assert Client(nginx).asks("GET", "/club.json", X_Address="2001:db8:0:1::1")[0] == 200


@pytest.mark.parametrize("name", [HOST, "other.example.org", "other.example.org;img-src"])
def test_the_policy_names_the_site(nginx, name):
    """The page that narrows may only connect to the site's list, whatever name is asked for."""
    client = Client(nginx)
    client.putrequest("GET", "/pass.html", skip_host=True)
    client.putheader("Host", name)
    client.endheaders()
    reply = client.getresponse()
    policy = f"connect-src https://{HOST}:{nginx}/club.json; frame-ancestors 'none'"
    assert (reply.status, reply.headers["Content-Security-Policy"]) == (200, policy)


# ---- bodies in chunks

BODY = b'{"guests":1}'


def in_chunks(port, body):
    """Sends a request whose body comes in chunks, and returns the status and the reply."""
    client = Client(port)
    client.request("PUT", "/slots/x", iter([body[:5], body[5:]]), encode_chunked=True)
    reply = client.getresponse()
    return reply.status, reply.read().decode("latin-1")


def test_nginx_measures_a_body_in_chunks(nginx):
    status, told = in_chunks(nginx, BODY)
    assert status == 200 and told.endswith(BODY.decode())
    assert "content-length: 12\r\n" in told.lower() and "transfer-encoding" not in told.lower()


@pytest.mark.parametrize("body", [BODY, b"a" * 5000], ids=["short", "long"])
def test_caddy_says_that_it_takes_no_chunks(caddy, body):
    wanted = "Send the body with Content-Length, not in chunks.\n"
    assert in_chunks(caddy, body) == (411, wanted)


@pytest.mark.parametrize("proxy", ["nginx", "caddy"])
def test_other_bodies_reach_the_desk(proxy, request):
    port = request.getfixturevalue(proxy)
    status, told = Client(port).asks("PUT", "/slots/x", BODY)
    assert status == 200 and told.endswith(BODY.decode())
    assert "content-length: 12\r\n" in told.lower()
    assert Client(port).asks("PUT", "/slots/x", b"a" * 1500)[0] == 413
    for method in ("PUT", "GET", "DELETE"):
        client = Client(port)
        client.putrequest(method, "/slots/x")
        client.endheaders()
        reply = client.getresponse()
        assert reply.status == 200 and reply.read().startswith(method.encode())
