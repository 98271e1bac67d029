"""Runs a page in chromium for the tests of pass.html and book.html. Checks the contrast of texts,
the height of buttons and fields, and the names for screen readers.

page_narrows.py and page_books.py use this module. Needs Debian's chromium, chromium-driver and
python3-selenium."""
import base64
import hashlib
import json
import re
import sys

from selenium import webdriver
from selenium.webdriver.chrome.service import Service
from selenium.webdriver.common.action_chains import ActionChains


def check(holds, *what):
    if not holds:
        sys.exit("check failed: " + "\n  ".join(str(each) for each in what))


class Browser:
    """A chromium that resolves host names only according to `rules`. If `before` is given, the
    browser runs this script in each page ahead of the page's own script."""

    helpers = ""  # JavaScript functions for the scripts that `run` and `each` execute
    batch = 25  # how many items go to the page in one call

    def __init__(self, rules="MAP * ~NOTFOUND", before="", language="en-US", words=(), letters=16):
        options = webdriver.ChromeOptions()
        for word in [
            "headless=new",
            "no-sandbox",
            "disable-gpu",
            "disable-dev-shm-usage",
            f"lang={language}",
            f"host-resolver-rules={rules}",
            "disable-features=HttpsUpgrades,HttpsFirstBalancedMode,HttpsFirstBalancedModeAutoEnable",
            *words,
        ]:
            options.add_argument(f"--{word}")
        options.add_experimental_option(
            "prefs",
            {"intl.accept_languages": language, "webkit.webprefs.default_font_size": letters},
        )
        options.set_capability("goog:loggingPrefs", {"browser": "ALL", "performance": "ALL"})
        self.driver = webdriver.Chrome(options=options, service=Service("/usr/bin/chromedriver"))
        self.driver.set_script_timeout(60)
        if before:
            self.command("Page.addScriptToEvaluateOnNewDocument", source=before)

    def __enter__(self):
        return self

    def __exit__(self, *fault):
        self.driver.quit()

    def command(self, name, **words):
        return self.driver.execute_cdp_cmd(name, words)

    def open(self, address):
        # First opens an empty page, so that the browser also loads an address that differs from the
        # current address only after `#`.
        self.driver.get("about:blank")
        self.driver.get(address)

    def run(self, script, *words):
        return self.driver.execute_script(self.helpers + script, *words)

    def each(self, function, items):
        """Calls a helper function in the page for each item, and returns the results."""
        script = (
            self.helpers
            + f"""
            const [items, done] = arguments;
            (async () => {{
              const answers = [];
              for (const item of items) answers.push(await {function}(item));
              done(answers);
            }})();"""
        )
        answers = []
        for place in range(0, len(items), self.batch):
            answers += self.driver.execute_async_script(script, items[place : place + self.batch])
        return answers

    def press(self, *keys):
        ActionChains(self.driver).send_keys(*keys).perform()

    def click(self, name):
        self.driver.find_element("id", name).click()

    def focused(self):
        return self.run("return document.activeElement.id || document.activeElement.value")

    def sees(self, width, scheme, height=900):
        self.command(
            "Emulation.setEmulatedMedia",
            features=[{"name": "prefers-color-scheme", "value": scheme}],
        )
        self.command(
            "Emulation.setDeviceMetricsOverride",
            width=width,
            height=height,
            deviceScaleFactor=1,
            mobile=width < 600,
        )

    def fits(self, width, scheme, height=900, *what):
        """Checks that the page doesn't scroll sideways at this width."""
        self.sees(width, scheme, height)
        across = self.run("return document.documentElement.scrollWidth")
        check(across <= width, "sideways scrolling", width, across, *what)

    def is_legible(self, *what):
        """Checks that each visible text has a contrast of at least 4.5, and that buttons, fields
        and the labels of options are at least 44 pixels high. Returns the number of visible
        texts."""
        count, faint = self.run(CONTRASTS)
        check(not faint, "faint texts", *what, *faint)
        small = self.run(SMALL_TARGETS)
        check(not small, "small targets", *what, *small)
        return count

    def is_named(self, roles, live, *what):
        """Checks that each focusable element, and each element with one of these roles, has a name
        for screen readers. The elements with the ids `live` must announce their changes to screen
        readers. Returns the nodes of the page's accessibility tree.
        """
        tree = [
            node
            for node in self.command("Accessibility.getFullAXTree")["nodes"]
            if not node["ignored"]
        ]
        for node in tree:
            properties = {
                each["name"]: each["value"].get("value") for each in node.get("properties", [])
            }
            if properties.get("focusable") or node["role"]["value"] in roles:
                check(
                    node["name"]["value"].strip(),
                    "no name for a screen reader",
                    *what,
                    node["role"],
                    node.get("description"),
                )
        heard = self.run(
            "return [...document.querySelectorAll('[role=status], [role=alert],"
            " [aria-live]')].map((each) => each.id)"
        )
        check(live <= set(heard), "elements that announce changes to a screen reader", heard)
        return tree

    def is_audited(self, *what):
        """Checks the elements of a page with the script AUDIT, which implements a selection of
        axe-core's rules."""
        found = self.run(AUDIT)
        check(not found, "the audit's findings", *what, *found)

    def cuts_nothing_off(self, width, *what):
        """Checks that the page doesn't scroll sideways, and that no text extends beyond the right
        edge. Texts in elements that may scroll sideways are exempt."""
        across = self.run("return document.documentElement.scrollWidth")
        check(across <= width, "sideways scrolling", *what, across)
        cut = self.run(CUT_OFF)
        check(not cut, "words that are cut off", *what, *cut)

    def breaks_no_word(self, *what):
        """Checks that no word of fewer than ten letters is broken across lines."""
        broken = self.run(BROKEN_WORDS)
        check(not broken, "words that are broken", *what, *broken)

    def focus_is_seen(self, *what):
        """Checks that the focused element has an outline. A date field needs no outline, because
        the browser marks a part of the date."""
        outline = self.run(
            """const style = getComputedStyle(document.activeElement);
            return document.activeElement.type === "date" || [style.outlineStyle, style.outlineWidth];"""
        )
        check(
            outline in (True, ["solid", "3px"]),
            "an invisible focus",
            *what,
            self.focused(),
            outline,
        )

    def side_by_side(self, pictures, width, height):
        """Returns a picture that shows several pictures side by side."""
        self.open("about:blank")
        self.sees(width, "light", height)
        self.driver.execute_script(
            """document.body.style.cssText = "margin: 0; display: flex; gap: 20px; background: #c9d0ca";
            const [pictures, height] = arguments;
            for (const it of pictures) document.body.append(Object.assign(new Image(), { height, src: "data:image/png;base64," + it }));
            return Promise.all([...document.images].map((image) => image.decode()));""",
            pictures,
            height,
        )
        return self.command("Page.captureScreenshot")["data"]

    def picture(self, top=0, height=None):
        """Returns a PNG in base64 of the whole page, or of the part that begins at `top` and has
        the height `height`."""
        width, whole = self.run(
            "const { offsetWidth, offsetHeight } = document.documentElement; return [offsetWidth,"
            " offsetHeight];"
        )
        clip = {"x": 0, "y": top, "width": width, "height": height or whole, "scale": 1}
        return self.command("Page.captureScreenshot", captureBeyondViewport=True, clip=clip)["data"]

    def sent_nothing(self, page):
        """Checks that the browser loaded only the page, and that the console has no messages."""
        check(
            self.run("return performance.getEntriesByType('resource').length") == 0,
            "the page loads something",
        )
        messages = [
            json.loads(entry["message"])["message"] for entry in self.driver.get_log("performance")
        ]
        asked = [
            each["params"]["request"]["url"]
            for each in messages
            if each["method"] == "Network.requestWillBeSent"
        ]
        others = [address for address in asked if not address.startswith((page, "about:", "data:"))]
        check(
            any(address.startswith(page) for address in asked) and not others,
            "the page requests",
            others,
        )
        complaints = self.driver.get_log("browser")
        check(not complaints, "the console says", complaints)


def policy_holds(page, more, calls, *links):
    """Checks that the page's Content-Security-Policy admits the page's own script and style by
    their hashes, and lets the page load nothing else. `more` has further directives that the policy
    must have. The page may link only to `links` and to `data:` addresses, and must use none of the
    calls `calls`."""
    text = page.read_text(encoding="utf-8")
    policy = re.search('http-equiv="Content-Security-Policy" content="([^"]*)"', text)[1]
    rules = dict(rule.strip().split(" ", 1) for rule in policy.split(";"))
    for tag in ("script", "style"):
        found = re.findall(f"<{tag}>(.*?)</{tag}>", text, re.DOTALL)
        check(len(found) == 1 and text.count(f"<{tag}") == 1, f"one {tag}", len(found))
        digest = base64.b64encode(hashlib.sha256(found[0].encode()).digest()).decode()
        check(
            rules[f"{tag}-src"] == f"'sha256-{digest}'",
            f"the policy's hash of the {tag} should be",
            f"sha256-{digest}",
        )
    wanted = {
        "default-src": "'none'",
        "base-uri": "'none'",
        "img-src": "data:",
        "form-action": "'none'",
        **more,
    }
    check("unsafe" not in policy and wanted.items() <= rules.items(), "a strict policy", policy)
    outside = re.sub("<(script|style)>.*?</", "", text, flags=re.DOTALL)
    check(
        not re.search(r"\s(on[a-z]+|style|src|action|srcset)=", outside),
        "attributes that load or run something",
    )
    check(
        all(
            link.startswith("data:") or link in links
            for link in re.findall('href="([^"]*)"', outside)
        ),
        "links",
    )
    misplaced = rf"innerHTML|outerHTML|insertAdjacentHTML|document\.write|eval\(|XMLHttpRequest|WebSocket|{calls}"
    check(not re.search(misplaced, text), "forbidden calls")
    check(not re.search(r"url\(|@import", text), "styles that load something")


CONTRASTS = """
const channels = (color) => color.match(/[0-9.]+/g).map(Number);
const bright = (color) => channels(color).slice(0, 3).map((c) => c / 255)
  .map((c) => c <= 0.04045 ? c / 12.92 : ((c + 0.055) / 1.055) ** 2.4)
  .reduce((sum, c, place) => sum + c * [0.2126, 0.7152, 0.0722][place], 0);
const ground = (each) => {
  const color = getComputedStyle(each).backgroundColor;
  return (channels(color)[3] ?? 1) > 0 ? color : each.parentElement ? ground(each.parentElement) : "rgb(255, 255, 255)";
};
const faint = [];
let count = 0;
for (const each of document.querySelectorAll("body *")) {
  const hasText = [...each.childNodes].some((node) => node.nodeType === 3 && node.data.trim()) || each.matches("input, select, textarea");
  if (!hasText || !each.checkVisibility() || each.offsetParent === null || each.tagName === "SCRIPT") continue;
  const [a, b] = [bright(getComputedStyle(each).color), bright(ground(each))].sort((x, y) => y - x);
  count += 1;
  if ((a + 0.05) / (b + 0.05) < 4.5) faint.push(`${each.tagName} ${each.className} ${(a + 0.05) / (b + 0.05)}: ${each.textContent}`);
}
return [count, faint];
"""
AUDIT = """
const found = [];
const isSeen = (each) => each.checkVisibility();
const all = (selector) => [...document.querySelectorAll(selector)];
const note = (rule, each) => found.push(`${rule}: ${each.outerHTML.slice(0, 100)}`);
const ids = all("[id]").map((each) => each.id);
for (const id of new Set(ids.filter((each, place) => ids.indexOf(each) !== place))) found.push(`duplicate-id: ${id}`);
for (const name of ["aria-labelledby", "aria-describedby", "aria-controls"]) {
  for (const each of all(`[${name}]`)) for (const id of each.getAttribute(name).split(/\\s+/)) if (document.getElementById(id) === null && isSeen(each)) note(name, each);
}
for (const each of all("input, select, textarea")) if (isSeen(each) && each.labels.length === 0 && !each.getAttribute("aria-label")) note("label", each);
for (const each of all("label[for]")) if (document.getElementById(each.htmlFor) === null) note("label-for", each);
for (const each of all("img")) if (each.getAttribute("alt") === null) note("image-alt", each);
for (const each of all("svg")) if (isSeen(each) && each.getAttribute("role") === "img" && !each.getAttribute("aria-label")) note("svg-img-alt", each);
for (const each of all("[tabindex]")) if (each.tabIndex > 0) note("tabindex", each);
for (const each of all("ul, ol")) if ([...each.children].some((child) => child.tagName !== "LI")) note("list", each);
for (const each of all("li")) if (!["UL", "OL"].includes(each.parentElement.tagName)) note("listitem", each);
for (const each of all("dl")) if ([...each.children].some((child) => !["DT", "DD"].includes(child.tagName))) note("definition-list", each);
for (const each of all("table")) if (isSeen(each) && each.rows.length > 0 && each.querySelector("th[scope]") === null) note("table-headers", each);
for (const each of all("button button, a button, button a, label button")) note("nested-interactive", each);
for (const each of all("a")) if (isSeen(each) && (!each.href || each.textContent.trim() === "")) note("link-name", each);
for (const each of all("[role]")) if (!["status", "alert", "group", "img"].includes(each.getAttribute("role"))) note("aria-roles", each);
for (const each of all("[aria-hidden=true]")) if (each.querySelector("button, a, input, select, textarea") !== null) note("aria-hidden-focus", each);
for (const each of all("[lang]")) if (!/^(en|de)$/.test(each.lang)) note("valid-lang", each);
for (const each of all("fieldset")) if (isSeen(each) && each.querySelector("legend") === null) note("fieldset-legend", each);
const levels = all("h1, h2, h3, h4").filter(isSeen).map((each) => Number(each.tagName[1]));
if (levels[0] !== 1 && !document.querySelector("dialog[open]")) found.push(`page-has-heading-one: ${levels}`);
levels.forEach((level, place) => { if (place > 0 && level > levels[place - 1] + 1) found.push(`heading-order: ${levels}`); });
for (const name of ["main", "header", "footer"]) if (all(name).length !== 1) found.push(`landmark-one-${name}`);
const viewport = document.querySelector("meta[name=viewport]")?.content ?? "";
if (/user-scalable\\s*=\\s*(no|0)|maximum-scale/.test(viewport)) found.push(`meta-viewport: ${viewport}`);
if (document.title.trim() === "" || document.documentElement.lang === "") found.push("document-title, html-has-lang");
return found;
"""
CUT_OFF = """
return [...document.querySelectorAll("button, h1, h2, h3, label, legend, p, dd, code, .choice, td, th")].filter((each) => each.checkVisibility()
  && each.closest("#facility-choice, .table-room") === null && each.getBoundingClientRect().right > innerWidth + 1).map((each) => each.outerHTML.slice(0, 100));
"""
BROKEN_WORDS = """
const found = [];
for (const each of document.querySelectorAll("h1, h2, h3, h4, th, label, button, .slot span, .slot-time, .state, .notice span")) {
  if (!each.checkVisibility() || each.getClientRects().length === 0) continue;
  for (const node of [...each.childNodes].filter((child) => child.nodeType === 3)) {
    for (const { 0: word, index } of node.data.matchAll(/[^\\s-]+/g)) {
      if (word.length > 9) continue;
      const range = document.createRange();
      range.setStart(node, index);
      range.setEnd(node, index + word.length);
      const lines = new Set([...range.getClientRects()].map(({ top }) => Math.round(top)));
      if (lines.size > 1) found.push(`${each.tagName} ${each.id} ${each.className}: ${word}`);
    }
  }
}
return found;
"""
SMALL_TARGETS = """
return [...document.querySelectorAll("button, select, textarea, input:not([type=radio]):not([type=checkbox]), .options label")]
  .filter((each) => each.offsetParent !== null && each.checkVisibility() && each.getBoundingClientRect().height < 44).map((each) => each.outerHTML.slice(0, 80));
"""
