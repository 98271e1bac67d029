"""Makes letters: one printable file with a sheet for each pass. A sheet has the link to the club's page, its QR code, and instructions."""

import html
import json
import os
import re
import subprocess

from club_office.asking import confirms
from club_office.clubs import program
from club_office.counter import as_desk, write_free
from club_office.faults import OUTPUT, fault, refusal
from club_office.mailing import BEFORE, MAILED
from club_office.passes import key_of
from club_office.spares import spare_keys
from club_office.texts import language, say
from club_office.values import NAME

# A sheet is laid out for a page of A4 or of Letter, so the style names no size.
STYLE = """
@page { margin: 12mm; }
body { margin: 0; color: #111; font: 10.5pt/1.4 system-ui, "DejaVu Sans", sans-serif; }
section { break-after: page; break-inside: avoid; max-width: 46rem; margin: 0 auto; padding: 0 .5rem; }
section:last-child { break-after: auto; } .back { height: 1px; }
h1 { font-size: 1.6rem; line-height: 1.2; margin: 0 0 .25rem; } h2 { font-size: 1.2rem; margin: 0 0 .25rem; }
p, ol { margin: .4rem 0; } .to { font-size: 1.15rem; margin: 0 0 .75rem; }
.code { display: flex; gap: 5mm; align-items: flex-start; } svg { flex: none; width: 52mm; height: 52mm; }
.half { margin-top: 1rem; padding-top: 1rem; border-top: 2px dashed #111; break-inside: avoid; }
.link { overflow-wrap: anywhere; font-size: .7rem; } .care { padding: .5rem .75rem; border: 2px solid #111; border-radius: .5rem; }
"""


def code_of(link):
    """Returns the link's QR code as SVG."""
    line = [
        program("QRENCODE", "qrencode"),
        "-8",
        "-l",
        "M",
        "-t",
        "SVG",
        "--svg-path",
        "-m",
        "4",
        "-o",
        "-",
    ]
    done = subprocess.run(line, input=link.encode(), capture_output=True, check=False)
    if done.returncode:
        raise fault(OUTPUT, "no code", said=done.stderr.decode(errors="replace").strip())
    text = done.stdout.decode()
    return text[text.index("<svg") :]


def linked(link):
    """Returns a link's QR code with the link next to it."""
    text = html.escape(link)
    return f'<div class="code">{code_of(link)}<p class="link"><a href="{text}">{text}</a></p></div>'


def half(club, spares):
    """Returns the half of a sheet that a member cuts off. The link on this half brings the spare passes for lending into the member's browser. The
    member opens the link once."""
    link = f"{club.site}/book.html#spare={';'.join(spares)}"
    return f"""<div class="half"><h2>{html.escape(say("letter lend title"))}</h2><p>{html.escape(say("letter lend"))}</p>
{linked(link)}</div>
"""


def sheet(club, name, key, text, spares):
    steps = "".join(f"<li>{html.escape(say(f'letter step {it}'))}</li>" for it in (1, 2, 3))
    contact = club.settings.get("contact", "")
    reached = html.escape(say("letter contact", contact=contact)) if contact else ""
    return f"""<section><h1>{html.escape(say("letter title", club=club.title))}</h1>
<p class="to">{html.escape(name)}</p>
<p>{html.escape(say("letter first", key=key))}</p><ol>{steps}</ol>
{linked(f"{club.site}/book.html#{text}")}
<p class="care">{html.escape(say("letter care"))} {reached}</p>{half(club, spares) if spares else ""}</section>
"""


# ---- The passes for a letter. Each function adds the passes that it leaves out to `left`, with the reasons.


def passes_of(folder, keys, left):
    """Returns the passes in a folder, or only the passes of some keys. Returns each pass together with its key."""
    if not keys:
        try:
            keys = sorted(it for it in os.listdir(folder) if NAME.fullmatch(it))
        except FileNotFoundError:
            keys = []
        if not keys:
            raise refusal("no passes", path=folder)
    texts = {}
    for key in keys:
        path = os.path.join(folder, key)
        try:
            with open(path, encoding="ascii") as file:
                text = file.read(9_000).strip()
            if key_of(text) != key:
                raise ValueError(say("pass of another", key=key_of(text)))
            texts[key] = text
        except FileNotFoundError:
            left[key] = refusal("no pass file", path=path, key=key)
        except (OSError, ValueError) as failure:
            left[key] = fault(OUTPUT, "in file", path=path, why=failure)
    return texts


def leave_out(club, names, folder, texts, left):
    """Removes the passes that the desk refuses: passes of unknown or revoked keys, and passes that are out of date because their keys have newer
    passes. The desk already refuses such a pass, or will refuse it soon."""
    for key in [it for it in texts if it not in names.keys or names.keys[it].revoked]:
        del texts[key]
        left[key] = refusal("no such key", key=key)
    status, text = as_desk(club, ["old-passes"], json.dumps(texts).encode())
    if status:
        raise fault(status, "club unread")
    for key in json.loads(text):
        del texts[key]
        left[key] = refusal("old pass", path=os.path.join(folder, key), key=key)


def spares_of(club, names, texts):
    """Removes the spare passes from `texts`, and returns each member's spare passes. These spare passes go on the second half of the member's first
    sheet."""
    found = {}
    for key in list(texts):
        member = names.keys[key].member
        if key in spare_keys(club, member):
            found.setdefault(member, []).append(texts.pop(key))
    return found


def sheets_of(club, names, texts):
    """Returns the sheets of the passes, and the names of the members."""
    sheets, members, lent = [], {}, spares_of(club, names, texts)
    for key, text in texts.items():
        member = names.keys[key].member
        members[member] = names.written.get(member) or member
        sheets.append(sheet(club, members[member], key, text, lent.pop(member, ())))
    for member, spares in lent.items():
        members[member] = names.written.get(member) or member
        sheets.append(
            f'<section><p class="to">{html.escape(members[member])}</p>{half(club, spares)}</section>'
        )
    return sheets, members


def page_of(club, sheets, is_duplex):
    """Returns the page with the sheets. With `is_duplex`, an empty page after each sheet keeps the back of each sheet free."""
    between = '<section class="back"></section>\n' if is_duplex else ""
    return f"""<!DOCTYPE html>
<html lang="{language()}"><head><meta charset="utf-8"><meta name="referrer" content="no-referrer">
<meta http-equiv="Content-Security-Policy" content="default-src 'none'; style-src 'unsafe-inline'">
<title>{html.escape(say("letter title", club=club.title))}</title><style>{STYLE}</style></head><body>
{between.join(sheets)}</body></html>
"""


def mail_what_can_be(club, names, texts, is_confirmed):
    """Mails the passes to the members whose addresses are known, after a question. Prints the result for each member. Returns the passes that weren't
    mailed."""
    members = {names.keys[it].member for it in texts}
    if not is_confirmed and not confirms("shall mail", count=len(members)):
        raise refusal("not confirmed")
    status, text = as_desk(club, ["mail-letters"], json.dumps(texts).encode())
    if status:
        raise fault(status, "club unread")
    results = json.loads(text)
    for key, result in results.items():
        member = names.keys[key].member
        if key not in spare_keys(club, member):
            print(say(f"letter {result}", name=names.written.get(member) or member, key=key))
    return {it: texts[it] for it in texts if results.get(it) not in (MAILED, BEFORE)}


def letters(club, words, names_of):
    """Writes the sheets of all passes to one new file. Leaves out the passes that the desk refuses, and lists them at the end."""
    if not re.fullmatch(r"https://[A-Za-z0-9.:/-]+", club.site):
        raise refusal("no site", club=club.name)
    if words.to and os.path.lexists(words.to):
        raise refusal("file there", path=words.to)
    program("QRENCODE", "qrencode")
    left = {}
    texts = passes_of(words.passes, words.key, left)
    names = names_of(club)
    leave_out(club, names, words.passes, texts, left)
    if not texts:
        raise next(iter(left.values()))
    if words.mail:
        texts = mail_what_can_be(club, names, texts, words.yes)
    if not texts:
        return 0
    sheets, members = sheets_of(club, names, texts)
    place = words.to or "letters.html"
    try:
        place = write_free(place, page_of(club, sheets, words.duplex))
    except OSError as failure:
        raise fault(OUTPUT, "cannot be written", path=place, fault=failure) from None
    count = "one" if len(sheets) == 1 else "of one" if len(members) == 1 else "made"
    print(say(f"letters {count}", count=len(sheets), members=len(members), file=place))
    if left:
        print(say("letters left"), *(f"    {why.why}" for why in left.values()), sep="\n")
    return 0
