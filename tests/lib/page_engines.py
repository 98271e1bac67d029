"""Drives three browsers through one interface: chromium, Debian's firefox-esr through Marionette,
and WebKitGTK's MiniBrowser through its driver. MiniBrowser needs a display.

page_narrows.py and page_books.py use this module. Needs Debian's chromium-driver, firefox-esr,
webkit2gtk-driver, xvfb and python3-selenium."""
import base64
import json
import os
import socket
import subprocess
import tempfile
import time
from pathlib import Path

from selenium import webdriver
from selenium.webdriver.webkitgtk.options import Options

import desk
from page_browser import Browser, check

MINI_BROWSER = "/usr/lib/x86_64-linux-gnu/webkit2gtk-4.1/MiniBrowser"
PREFERENCES = {
    "marionette.port": None,
    "intl.accept_languages": "en-US",
    "network.dns.localDomains": "desk.example.org",
    "app.update.enabled": False,
    "datareporting.policy.dataSubmissionEnabled": False,
    "network.captive-portal-service.enabled": False,
    "network.connectivity-service.enabled": False,
    "browser.safebrowsing.malware.enabled": False,
    "browser.safebrowsing.phishing.enabled": False,
    "services.settings.server": "data:,",
    "browser.shell.checkDefaultBrowser": False,
    "extensions.getAddons.cache.enabled": False,
    "dom.serviceWorkers.enabled": True,
}
WIDTH, HEIGHT = 400, 820


class Engine:
    """The common interface of the browsers. Its methods open an address, run a script in the page,
    and press a button."""

    helpers = ""  # functions for the scripts
    name = host = ""

    def __enter__(self):
        return self

    def __exit__(self, *fault):
        self.close()

    def get(self, script, *words):
        return self.run(self.helpers + script, *words)

    def when(self, condition, *what, limit=40):
        """Waits until a condition holds in the page."""
        end = time.monotonic() + limit
        while not self.get(f"return Boolean({condition})"):
            check(
                time.monotonic() < end,
                self.name,
                *what,
                condition,
                self.run("return document.body.innerText"),
            )
            time.sleep(0.1)

    def code(self, place):
        """Scrolls to an element, and returns the text of the QR code on the screen, or an empty
        text."""
        self.run("document.getElementById(arguments[0]).scrollIntoView({ block: 'center' })", place)
        with tempfile.NamedTemporaryFile(suffix=".png") as file:
            for _ in range(20):
                time.sleep(0.2)  # the browser draws the element soon after the scrolling
                Path(file.name).write_bytes(self.picture())
                text = subprocess.run(
                    ["zbarimg", "-q", "--raw", file.name],
                    capture_output=True,
                    text=True,
                    check=False,
                ).stdout.strip()
                if text:
                    return text
        return ""

    def press(self, words, root):
        """Presses the button that is in the element `root` and has these words."""
        self.tap(
            f'//*[@id=\'{root}\']//button[normalize-space()="{words}" or @aria-label="{words}"]'
        )

    def press_in_card(self, words):
        """Presses the button that belongs to the first future booking and has these words."""
        self.tap(f"(//*[@id='to-come']/li)[1]//button[normalize-space()=\"{words}\"]")


class Chromium(Engine):
    """Chromium as page_browser.py starts it, with the width of a telephone."""

    name, host = "chromium", "desk.example.org"

    def __init__(self, words=()):
        self.browser = Browser(
            rules="MAP desk.example.org 127.0.0.1, EXCLUDE localhost, MAP * ~NOTFOUND",
            words=["ignore-certificate-errors", *words],
        )
        self.browser.sees(WIDTH, "light", HEIGHT)
        self.version = self.browser.driver.capabilities["browserVersion"]

    def open(self, address):
        self.browser.open(address)

    def run(self, script, *words):
        return self.browser.driver.execute_script(script, *words)

    def tap(self, path):
        self.browser.driver.find_element("xpath", path).click()

    def type(self, path, text):
        self.browser.driver.find_element("xpath", path).send_keys(text)

    def picture(self):
        return self.browser.driver.get_screenshot_as_png()

    def close(self):
        self.browser.driver.quit()


class Firefox(Engine):
    """Firefox without a window. The browser resolves the page's host name to this machine."""

    name, host = "Firefox", "desk.example.org"

    def __init__(self):
        self.folder = tempfile.TemporaryDirectory(ignore_cleanup_errors=True)
        port, self.count, self.rest = desk.free_port(), 0, b""
        preferences = {**PREFERENCES, "marionette.port": port}
        Path(self.folder.name, "user.js").write_text(
            "".join(
                f"user_pref({json.dumps(name)}, {json.dumps(value)});\n"
                for name, value in preferences.items()
            ),
            encoding="utf-8",
        )
        size = {"MOZ_HEADLESS_WIDTH": str(WIDTH), "MOZ_HEADLESS_HEIGHT": str(HEIGHT)}
        self.process = subprocess.Popen(
            [
                "firefox-esr",
                "--headless",
                "--marionette",
                "--no-remote",
                "--profile",
                self.folder.name,
            ],
            stdout=subprocess.DEVNULL,
            stderr=subprocess.DEVNULL,
            env={**os.environ, "HOME": self.folder.name, **size},
        )
        end = time.monotonic() + 60
        while True:
            try:
                self.socket = socket.create_connection(("127.0.0.1", port))
                break
            except OSError:
                if time.monotonic() > end:
                    raise
                time.sleep(0.2)
        self.received()
        self.version = self.command("WebDriver:NewSession", acceptInsecureCerts=True)[
            "capabilities"
        ]["browserVersion"]
        self.command("WebDriver:SetWindowRect", width=WIDTH, height=HEIGHT)

    def received(self):
        """Returns the next message. A message consists of its length in digits, a colon, and
        JSON."""
        while b":" not in self.rest:
            self.rest += self.come()
        length, _, self.rest = self.rest.partition(b":")
        while len(self.rest) < int(length):
            self.rest += self.come()
        message, self.rest = self.rest[: int(length)], self.rest[int(length) :]
        return json.loads(message)

    def come(self):
        data = self.socket.recv(65536)
        if not data:
            raise ConnectionError("Firefox is gone")
        return data

    def command(self, name, **words):
        self.count += 1
        message = json.dumps([0, self.count, name, words]).encode()
        self.socket.sendall(f"{len(message)}:".encode() + message)
        _, _, fault, result = self.received()
        if fault:
            raise RuntimeError(f"{name}: {fault}")
        return result

    def open(self, address):
        self.command("WebDriver:Navigate", url="about:blank")
        self.command("WebDriver:Navigate", url=address)

    def run(self, script, *words):
        """Runs a script in the page. The script can use the page's functions, but not its
        constants."""
        return self.command(
            "WebDriver:ExecuteScript", script=script, args=list(words), sandbox=None
        )["value"]

    def found(self, path):
        return next(
            iter(self.command("WebDriver:FindElement", using="xpath", value=path)["value"].values())
        )

    def tap(self, path):
        self.command("WebDriver:ElementClick", id=self.found(path))

    def type(self, path, text):
        self.command("WebDriver:ElementSendKeys", id=self.found(path), text=text)

    def picture(self):
        return base64.b64decode(self.command("WebDriver:TakeScreenshot", full=False)["value"])

    def close(self):
        self.process.kill()
        self.process.wait()
        self.folder.cleanup()


class WebKit(Engine):
    """WebKitGTK's MiniBrowser, on a separate virtual display. The browser resolves only the names
    of this machine."""

    name, host = "WebKit", "localhost"

    def __init__(self):
        read, write = os.pipe()
        self.display = subprocess.Popen(
            ["Xvfb", "-displayfd", str(write), "-screen", "0", "1280x900x24"],
            pass_fds=[write],
            stdout=subprocess.DEVNULL,
            stderr=subprocess.DEVNULL,
        )
        os.close(write)
        with os.fdopen(read) as come:
            number = come.readline().strip()
        options = Options()
        options.binary_location = MINI_BROWSER
        options.add_argument("--automation")
        options.set_capability("acceptInsecureCerts", True)
        os.environ.update(
            DISPLAY=f":{number}", WEBKIT_DISABLE_SANDBOX_THIS_IS_DANGEROUS="1"
        )  # the driver passes these variables to the browser
        self.driver = webdriver.WebKitGTK(
            executable_path="/usr/bin/WebKitWebDriver", options=options
        )
        self.version = self.driver.capabilities.get("browserVersion", "")
        self.driver.set_window_size(WIDTH, HEIGHT)

    def open(self, address):
        self.driver.get("about:blank")
        self.driver.get(address)

    def run(self, script, *words):
        return self.driver.execute_script(script, *words)

    def tap(self, path):
        self.driver.find_element("xpath", path).click()

    def type(self, path, text):
        self.driver.find_element("xpath", path).send_keys(text)

    def picture(self):
        return self.driver.get_screenshot_as_png()

    def close(self):
        self.driver.quit()
        self.display.kill()
        self.display.wait()
