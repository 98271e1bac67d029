"""The office's texts for clerks, in English and German: a table with a line for each text."""

import os

from club_office.refusals import GERMAN, REFUSALS

LANGUAGES = ("en", "de")
WEEKDAYS = {
    "en": "Monday Tuesday Wednesday Thursday Friday Saturday Sunday".split(),
    "de": "Montag Dienstag Mittwoch Donnerstag Freitag Samstag Sonntag".split(),
}
MONTHS = {
    "en": "January February March April May June July August September October November December".split(),
    "de": "Januar Februar März April Mai Juni Juli August September Oktober November Dezember".split(),
}

TEXTS = {
    "said": ("{said}", "{said}"),
    "done": ("done", "erledigt"),
    "and": (" and ", " und "),
    # Questions and their answers.
    "yes": ("y yes", "j ja y yes"),
    "shall": ("Shall this be done? [y/N] ", "Soll das geschehen? [j/N] "),
    "go on": ("Go on? [y/N] ", "Weiter? [j/N] "),
    "shall be clerk": (
        "The copies name the clerk {user}. Shall {user} work in the office here? [y/N] ",
        "Die Kopien nennen {user} im Büro. Soll {user} hier im Büro arbeiten? [j/N] ",
    ),
    "not confirmed": ("not confirmed; nothing changed", "nicht bestätigt; nichts geändert"),
    "is past": ("{day} is past.", "{day} ist vorbei."),
    "is far": (
        "{day} is {ahead} days ahead. Members can book at most 60 days ahead, so nobody can book that day yet.",
        "{day} ist erst in {ahead} Tagen: gebucht werden kann höchstens 60 Tage im Voraus.",
    ),
    "is much": (
        "{points} points is more than ten times the usual {usual} points.",
        "{points} Punkte sind mehr als das Zehnfache der üblichen {usual}.",
    ),
    "several fit": ("{typed} may be", "{typed} passt auf"),
    "which": ("Number, or Enter for none: ", "Nummer oder Enter für keine: "),
    "more": (
        "and {count} more names match: type more of the name",
        "und {count} weitere: mehr vom Namen eingeben",
    ),
    "nobody": ("no name matches", "dazu passt kein Name"),
    "no day": (
        "this is not a day: write sa, +3, tomorrow, 5.12. or 2026-12-05",
        "kein Tag: etwa sa, +3, morgen, 5.12. oder 2026-12-05",
    ),
    "no hours": ("these are not hours: write 15 or 15-17", "keine Uhrzeit: etwa 15 oder 15-17"),
    "no number": (
        "this is not a number from {least} to {most}",
        "keine Zahl von {least} bis {most}",
    ),
    "number too large": (
        "this number is too large: at most {most}",
        "diese Zahl ist zu groß: höchstens {most}",
    ),
    "number too small": (
        "this number is too small: at least {least}",
        "diese Zahl ist zu klein: mindestens {least}",
    ),
    "no name": ("this answer isn't possible", "diese Antwort ist nicht möglich"),
    "taken name": ("{name} already exists", "{name} gibt es schon"),
    "none yet": ("there are none", "es gibt keine"),
    # The menu.
    "menu": ("The office of {club}, {day}", "Das Büro von {club}, {day}"),
    "menu ends": (
        "Type a task's number or part of its name. Enter alone quits. Ctrl-C goes back.",
        "Nummer oder ein Wort davon; Enter beendet. Strg-C geht zurück, ändert nichts.",
    ),
    "small menu": (
        "Type a group's name to see its tasks.",
        "Der Name einer Gruppe zeigt ihre Aufgaben.",
    ),
    "task": ("Task: ", "Aufgabe: "),
    "back": ("back; nothing changed", "zurück; nichts geändert"),
    "enter": ("Enter for the menu ", "Enter für das Menü "),
    "broken off": (
        "interrupted: `office {club} log` shows what was already done",
        "abgebrochen: `office {club} log` zeigt, was bis dahin gemacht wurde",
    ),
    "no such file": ("this file doesn't exist", "diese Datei gibt es nicht"),
    "no task": ("no task has this name", "so heißt keine Aufgabe"),
    "do it": ("Do it? [Y/n] ", "Ausführen? [J/n] "),
    "no": ("n no", "n nein no"),
    "group today": ("TODAY", "HEUTE"),
    "group member": ("A MEMBER", "EIN MITGLIED"),
    "group bookings": ("BOOKINGS", "BUCHUNGEN"),
    "group points": ("POINTS", "PUNKTE"),
    "group courts": ("COURTS, BOATS, ROOMS", "PLÄTZE, BOOTE, RÄUME"),
    "group tournament": ("TOURNAMENT, RAIN", "TURNIER, REGEN"),
    "group season": ("SEASON", "SAISON"),
    "group copies": ("COPIES, THE BOOK", "KOPIEN, PROTOKOLL"),
    "task today": ("who comes today", "wer heute kommt"),
    "task sheet": ("the sheet of a day", "die Tagesliste"),
    "task day": ("a day's bookings", "wer für einen Tag gebucht hat"),
    "task member": ("what a member has", "was ein Mitglied hat"),
    "task new member": ("a new member", "ein neues Mitglied"),
    "task person": ("name, mail, telephone", "Name, E-Mail, Telefon"),
    "task letters": ("letters with the passes", "Briefe mit den Pässen"),
    "task book": ("book for a member who calls", "buchen, wenn jemand anruft"),
    "task call off": ("cancel for a member who calls", "absagen, wenn jemand anruft"),
    "task record": ("a lost list of bookings", "eine verlorene Buchungsliste"),
    "task credit all": ("the season's points for everyone", "Saisonpunkte für alle"),
    "task training": ("close slots each week, for training", "jede Woche sperren, fürs Training"),
    "task report": ("a report for the board", "der Bericht für den Vorstand"),
    "task page": ("rebuild the booking page's list", "die Buchungsseite aktualisieren"),
    "task undo": ("undo the last correction", "letzte Korrektur zurücknehmen"),
    "task key": ("another key, for a device", "ein weiterer Schlüssel, für ein Gerät"),
    "task lost": ("a lost pass", "ein verlorener Pass"),
    "task quota": ("a member's quota of open bookings", "wie viel ein Mitglied buchen darf"),
    "task leave": ("a member leaves", "ein Mitglied tritt aus"),
    "task bookings": ("what a member has booked", "was ein Mitglied gebucht hat"),
    "task cancel": ("cancel, all points back", "absagen, alle Punkte zurück"),
    "task credit": ("credit points", "Punkte gutschreiben"),
    "task debit": ("take points back", "Punkte zurücknehmen"),
    "task balances": ("everyone's balances", "alle Punktestände"),
    "task money": ("a member's points, summed up", "Punkte eines Mitglieds, summiert"),
    "task facilities": ("all facilities", "alle Anlagen"),
    "task new facility": ("a new facility", "eine Anlage anlegen"),
    "task set facility": ("price, places or hours", "Preis, Plätze oder Zeiten"),
    "task facility": ("who has booked a facility", "wer eine Anlage gebucht hat"),
    "task close": ("close for a tournament", "sperren für ein Turnier"),
    "task rain": ("rain: all points back", "Regen: alle Punkte zurück"),
    "task closed": ("what is closed", "was gesperrt ist"),
    "task reopen": ("open again", "wieder öffnen"),
    "task import": ("members from a list", "Mitglieder aus einer Liste"),
    "task new year": ("a new year", "ein neues Jahr"),
    "task copies": ("the copies", "die Kopien"),
    "task restore": ("restore the club from a copy", "eine Kopie zurückspielen"),
    "task log": ("what was done", "was gemacht wurde"),
    "task check": ("are the sums right", "stimmen die Summen"),
    # What the menu asks.
    "ask member": ("Member (part of the name)", "Mitglied (Teil des Namens)"),
    "ask key": ("Key", "Schlüssel"),
    "ask facility": ("Court, boat or room", "Platz, Boot oder Raum"),
    "ask facilities": (
        "Which facilities (parts of names, all, courts, boats, rooms)",
        "Welche (Teile der Namen, alle, Plätze, Boote, Räume)",
    ),
    "ask day": ("Day (sa, +3, tomorrow, 5.12.)", "Tag (sa, +3, morgen, 5.12.)"),
    "ask first day": ("First day (tue, 2027-01-05, 5.12.)", "Erster Tag (di, 2027-01-05, 5.12.)"),
    "ask last day": ("Last day", "Letzter Tag"),
    "ask hours": ("Hours, such as 15-17", "Stunden, etwa 15-17"),
    "ask hour": ("Hours, such as 15 or 15-17", "Stunden, etwa 15 oder 15-17"),
    "ask guests": ("How many guests come along", "Wie viele kommen mit"),
    "costs": ("{persons}, {hours} h: {points} points", "{persons}, {hours} Std.: {points} Punkte"),
    "ask label": (
        "A name for the credit, such as {example}; no member gets the credit twice",
        "Ein Name für die Gutschrift, etwa {example}; kein Mitglied bekommt sie zweimal",
    ),
    "ask why": ("The reason, which the booking page shows", "Grund, den die Seite zeigt"),
    "ask points": ("Points", "Punkte"),
    "ask new name": ("Full name", "Vor- und Nachname"),
    "ask name": ("Full name [{now}]: ", "Vor- und Nachname [{now}]: "),
    "ask mail": ("Mail address [{now}]: ", "E-Mail [{now}]: "),
    "ask telephone": ("Telephone [{now}]: ", "Telefon [{now}]: "),
    "ask quota": (
        "Open bookings that the member may have at a time, 0 to 99",
        "Wie viele Buchungen zugleich offen sein dürfen, 0 bis 99",
    ),
    "ask booking": ("Which booking", "Welche Buchung"),
    "ask copy": ("Which copy", "Welche Kopie"),
    "ask file": ("File of the list", "Datei der Liste"),
    "ask word": (
        "A word to look for, or Enter to see all lines",
        "Suchwort oder Enter für alle Zeilen",
    ),
    "ask facility name": ("Short name, such as court-3", "Kurzer Name, etwa court-3"),
    "ask kind": ("Kind: court, boat or room", "Art: court (Platz), boat (Boot) oder room (Raum)"),
    "ask places": (
        "Places, 1 to 50: how many persons can use the facility at a time",
        "Plätze, 1 bis 50: wie viele Personen zugleich",
    ),
    "ask price": (
        "Points per person and hour, 0 to 9999",
        "Punkte je Person und Stunde, 0 bis 9999",
    ),
    "ask opening": ("Opening hours, such as 8-22", "Öffnungszeiten, etwa 8-22"),
    "ask new price": ("New price, or Enter to keep {now}", "Neuer Preis oder Enter für {now}"),
    "ask new places": (
        "New number of places, or Enter to keep {now}",
        "Neue Anzahl der Plätze oder Enter für {now}",
    ),
    "ask new opening": (
        "New opening hours, or Enter to keep {now}",
        "Neue Öffnungszeiten oder Enter für {now}",
    ),
    "member has": (
        "{balance} points, and at most {quota} open bookings at a time",
        "{balance} Punkte, höchstens {quota} offene Buchungen",
    ),
    "given up removed": (
        "{path} contained a pass that is no longer valid, and was removed",
        "in {path} war ein Pass, der nicht mehr gilt; die Datei ist gelöscht",
    ),
    "lost removed": (
        "{path} contained the lost pass and was removed",
        "in {path} war der verlorene Pass; die Datei ist gelöscht",
    ),
    "pass is in": (
        "the pass is in the file {file} in this folder",
        "der Pass ist in der Datei {file} in diesem Ordner",
    ),
    # What corrections and a restore do.
    "person": ("1 person", "1 Person"),
    "persons": ("{count} persons", "{count} Personen"),
    "cancels": (
        "cancels {slot}, {persons}, {points} points back: {key} {number}, {member}",
        "sagt {slot} ab, {persons}, {points} Punkte zurück: {key} {number}, {member}",
    ),
    "closes": ("closes {slot}", "sperrt {slot}"),
    "opens": ("opens {slot} again", "öffnet {slot} wieder"),
    "was done": (
        "this correction was interrupted on {moment}, and is complete now: nothing is left to do",
        "das wurde am {moment} unterbrochen und ist jetzt erledigt: es bleibt nichts zu tun",
    ),
    "quota of": (
        "quota of {member} changes from {before} to {then}",
        "offene Buchungen von {member}: bisher höchstens {before}, künftig {then}",
    ),
    "balance of": (
        "balance of {member} changes from {before} to {then}",
        "Punktestand von {member}: bisher {before}, künftig {then}",
    ),
    "price of": (
        "price of {facility} changes from {before} to {then}; existing bookings keep their charge",
        "Preis von {facility}: bisher {before}, künftig {then}; was gebucht ist, behält seinen Preis",
    ),
    "places of": (
        "places of {facility} change from {before} to {then}",
        "Plätze von {facility}: bisher {before}, künftig {then}",
    ),
    "hours of": (
        "hours of {facility} change from {before} to {then}",
        "Zeiten von {facility}: bisher {before}, künftig {then}",
    ),
    "revokes": (
        "revokes the key {key} and renames it to {then}",
        "widerruft den Schlüssel {key} und nennt ihn {then}",
    ),
    "becomes": (
        "renames member {member} to {then}, with quota 0 and a balance of {balance}",
        "Mitglied {member} heißt künftig {then}, darf nichts mehr buchen und behält {balance} Punkte",
    ),
    "copies to": ("copies the whole file to {path}", "kopiert die Datei, wie sie ist, nach {path}"),
    "takes out": (
        "removes {bookings} bookings and {slots} slots before {day} from the file, and keeps {kept} bookings",
        "entfernt {bookings} Buchungen und {slots} Zeiten vor dem {day} aus der Datei und behält {kept} Buchungen",
    ),
    "carries": (
        "carries forward {points} points that {keys} keys have spent",
        "trägt {points} Punkte vor, die {keys} Schlüssel ausgegeben haben",
    ),
    "forgets member": ("removes the member {name}", "entfernt das Mitglied {name}"),
    "has member": ("brings back the member {name}", "stellt das Mitglied {name} wieder her"),
    "facility as was": (
        "changes the facility {facility} back to its earlier state",
        "setzt die Anlage {facility} zurück",
    ),
    "nothing to come": (
        "the restore changes no member, balance, quota, pass, facility or future slot",
        "das Zurückspielen ändert weder Mitglieder, Punktestände, Buchungsgrenzen, Pässe und Anlagen noch künftige Zeiten",
    ),
    "forgets key": (
        "removes the key {key}: its passes are refused",
        "entfernt den Schlüssel {key}: seine Pässe gelten nicht mehr",
    ),
    "has key": (
        "brings back the key {key} and its passes",
        "stellt den Schlüssel {key} und seine Pässe wieder her",
    ),
    "rotated back": (
        "accepts the passes that {key} had before its rotation, and refuses the later passes of {key}",
        "nimmt Pässe von {key} aus der Zeit vor dem Wechsel wieder an, spätere nicht mehr",
    ),
    "revoked again": (
        "refuses the passes of {key}: the key is revoked again",
        "lehnt die Pässe von {key} ab: er ist wieder widerrufen",
    ),
    "revoked now": (
        "accepts the passes of {key} again: the key is no longer revoked",
        "nimmt die Pässe von {key} wieder an: der Schlüssel ist dann nicht mehr widerrufen",
    ),
    "loses": (
        "loses the booking {slot}, {persons}, {points} points: {key} {number}, {member}",
        "verliert {slot}, {persons}, {points} Punkte: {key} {number}, {member}",
    ),
    "books again": (
        "books {slot} again, {persons}, {points} points: {key} {number}, {member}",
        "bucht wieder {slot}, {persons}, {points} Punkte: {key} {number}, {member}",
    ),
    # Bookings for a member who calls.
    "booked": (
        "booked {slot} for {member}, {persons}, {points} points: {booking}",
        "{slot} gebucht für {member}, {persons}, {points} Punkte: {booking}",
    ),
    "called off": (
        "cancelled {slot} of {member}, {points} points back: {booking}",
        "{slot} von {member} abgesagt, {points} Punkte zurück: {booking}",
    ),
    "booked before": (
        "{slot} is already booked for {member}: {booking}",
        "{slot} ist für {member} schon gebucht: {booking}",
    ),
    "booked in all": (
        "slots booked in all: {count}, for {points} points",
        "zusammen: {count} gebucht, {points} Punkte",
    ),
    "called off in all": (
        "bookings cancelled in all: {count}, with {points} points back",
        "zusammen: {count} abgesagt, {points} Punkte zurück",
    ),
    "not done": ("not done: {lines}", "nicht erledigt: {lines}"),
    "done so far": ("done: {lines}", "erledigt: {lines}"),
    "further": ("{count} more", "{count} weitere"),
    "new names": (
        "new names for {member} and the keys",
        "neue Namen für {member} und die Schlüssel",
    ),
    # Persons.
    "to tell": ("Members to inform:", "Zu benachrichtigen:"),
    "no mail": ("{name}: no mail address known", "{name}: keine E-Mail bekannt"),
    "mailed": ("{name}: mailed", "{name}: E-Mail verschickt"),
    "not mailed": ("{name}: couldn't be mailed", "{name}: E-Mail konnte nicht verschickt werden"),
    "mail subject": ("{club}: your booking was cancelled", "{club}: Deine Buchung wurde abgesagt"),
    "mail subject several": (
        "{club}: your bookings were cancelled",
        "{club}: Deine Buchungen wurden abgesagt",
    ),
    "mail text": (
        "Dear {name},\n\nthe office had to cancel your booking:\n\n{lines}\n\nYou get {points} points back.\n\n{club}\n",
        "Hallo {name},\n\ndas Büro musste deine Buchung absagen:\n\n{lines}\n\nDu bekommst {points} Punkte zurück.\n\n{club}\n",
    ),
    "mail text several": (
        "Dear {name},\n\nthe office had to cancel the following bookings:\n\n{lines}\n\nYou get {points} points back.\n\n{club}\n",
        "Hallo {name},\n\ndas Büro musste folgende Buchungen absagen:\n\n{lines}\n\nDu bekommst {points} Punkte zurück.\n\n{club}\n",
    ),
    "mail slot": ("{facility}, {day}, {hour:02d}:00", "{facility}, {day}, {hour} Uhr"),
    # A list.
    "list read": (
        "the list was read as {letters} with {sign} between the columns: {columns}",
        "gelesen als {letters} mit {sign} zwischen den Spalten: {columns}",
    ),
    "list over": ("; ignored columns: {columns}", "; übergangen: {columns}"),
    "nothing to do": ("nothing to do", "nichts zu tun"),
    "import in all": (
        "in all: {count} of {rows} rows left to do, {points} points",
        "zusammen: {count} von {rows} Zeilen zu erledigen, {points} Punkte",
    ),
    "spare pass": ("spare pass {key}", "Ersatzpass {key}"),
    "imported": (
        "{done} of {rows} rows done, {there} rows done before; passes are in {folder}",
        "{done} von {rows} Zeilen erledigt, {there} waren schon da; die Pässe sind in {folder}",
    ),
    "new": ("new", "neu"),
    "there": ("there", "da"),
    "begun": ("begun", "begonnen"),
    "begun credited": ("begun, credited {points}", "begonnen, {points} Punkte"),
    # Copies.
    "back-up": ("back-up", "nächtlich"),
    "before a correction": ("before a correction", "vor einer Korrektur"),
    "off-site": ("off-site", "außer Haus"),
    "age minute": ("1 minute", "1 Minute"),
    "age minutes": ("{count} minutes", "{count} Minuten"),
    "age hours": ("{count} hours", "{count} Stunden"),
    "age days": ("{count} days", "{count} Tage"),
    "tested opened": ("opened", "geöffnet"),
    "tested whole": ("whole", "vollständig"),
    "tested sum": ("same bytes", "gleiche Bytes"),
    "tested no": ("no", "nein"),
    # Lists.
    "no bookings": ("no bookings", "keine Buchungen"),
    "sums are right": (
        "the stored totals match the sums of the bookings",
        "die Summen stimmen mit den Buchungen überein",
    ),
    # The season's points.
    "credits all": (
        "credits {members} members with {points} points each, {total} in all, as {label}; members with quota 0 get no points",
        "schreibt {members} Mitgliedern je {points} Punkte gut, zusammen {total}, als {label}; wer nichts buchen darf, bekommt nichts",
    ),
    "points lost": (
        "the restore removed the credit {label}: to give it again, use credit-all",
        "die Gutschrift {label} ist mit dem Zurückspielen weg; credit-all schreibt sie wieder gut",
    ),
    "credited before": ("{count} members already have these points", "{count} haben sie schon"),
    "credited": (
        "{count} members credited with {points} points, as {label}",
        "{count} Mitgliedern {points} Punkte gutgeschrieben, als {label}",
    ),
    # Undo.
    "undoes": (
        "undoes what was done on {moment}: {words}",
        "nimmt zurück, was am {moment} gemacht wurde: {words}",
    ),
    "puts back": ("puts back {row}", "stellt wieder her: {row}"),
    "takes away": ("takes away {row}", "entfernt: {row}"),
    "row members": ("the member {row}", "das Mitglied {row}"),
    "row facilities": ("the facility {row}", "{row}"),
    "row keys": ("the key {row}", "den Schlüssel {row}"),
    "row slots": ("the slot {row}", "die Zeit {row}"),
    "row bookings": ("the booking {row}", "die Buchung {row}"),
    "row old_roots": ("the older root of {row}", "das alte Geheimnis von {row}"),
    # Letters.
    "letter title": ("Book at {club}", "Buchen bei {club}"),
    "letter first": (
        "Your pass is called {key}. Use the pass to book and cancel, on a phone or a computer.",
        "Dein Pass heißt {key}. Damit kannst du buchen und absagen, am Handy oder am Computer.",
    ),
    "letter step 1": (
        "Point the camera of your phone at the QR code, or open the link below.",
        "Öffne die Kamera deines Handys und halte sie auf den QR-Code, oder öffne den Link darunter.",
    ),
    "letter step 2": (
        "The page asks whether your browser should keep the pass. On your own device, press “Keep it”.",
        "Die Seite fragt, ob dieser Browser den Pass speichern soll. Auf deinem eigenen Gerät: Drück auf „Speichern“.",
    ),
    "letter step 3": (
        "Choose the day, press a free slot, and book.",
        "Wähle den Tag, tippe auf eine freie Zeit und buche.",
    ),
    "letter lend title": ("To lend", "Zum Verleihen"),
    "letter lend": (
        "Cut off this half and keep it. On your own device, open the link on this half once. Then you can lend a part of your pass: under “Lend” on the page, choose what to"
        " lend, such as the courts until Friday for 600 points. Bookings made with a lent part count separately from your own bookings. Nobody can use a lent part to cancel your own bookings.",
        "Schneide diese Hälfte ab und behalte sie. Öffne ihren Link einmal auf einem eigenen Gerät: Dann kannst du auf der Seite unter „Verleihen“"
        " einen Teil deines Passes verleihen, etwa die Plätze bis Freitag für 600 Punkte. Was damit gebucht wird, zählt für sich, und deine eigenen Buchungen kann damit niemand absagen.",
    ),
    "letter care": (
        "Anyone who has this sheet can book with your points. Once your browser keeps the pass, throw the sheet away, or guard the sheet like a house key."
        " If somebody else needs a pass, the office makes a separate pass. If you lose this sheet or your phone, call the office.",
        "Wer dieses Blatt hat, kann mit deinen Punkten buchen. Sobald dein Browser den Pass gespeichert hat, wirf das Blatt weg oder verwahre es wie einen Hausschlüssel."
        " Für jemand anderen macht das Büro einen eigenen Pass. Hast du das Blatt oder das Handy verloren, ruf im Büro an.",
    ),
    "shall mail": (
        "Mail the passes of {count} members, if their addresses are known? [y/N] ",
        "Die Pässe von {count} Mitgliedern mailen, soweit die Adressen bekannt sind? [j/N] ",
    ),
    "letter dear": ("Dear {name},", "Hallo {name},"),
    "letter lend mail": (
        "With this second link you can lend a part of your pass. Open it once on your own device.",
        "Mit diesem zweiten Link kannst du einen Teil deines Passes verleihen. Öffne ihn einmal auf einem eigenen Gerät.",
    ),
    "letter care mail": (
        "Anyone who has this mail can book with your points. Once your browser keeps the pass, delete this mail.",
        "Wer diese Mail hat, kann mit deinen Punkten buchen. Lösche sie, sobald dein Browser den Pass gespeichert hat.",
    ),
    "letter mailed": ("{name}: mailed", "{name}: E-Mail verschickt"),
    "letter before": ("{name}: {key} was mailed before", "{name}: {key} war schon verschickt"),
    "letter refused": (
        "{name}: couldn't be mailed, gets a sheet",
        "{name}: E-Mail nicht verschickt, bekommt ein Blatt",
    ),
    "letter doubtful": (
        "{name}: the mailer didn't finish, so nobody knows whether {key} was mailed; gets a sheet",
        "{name}: das Mailprogramm kam nicht zum Ende, vielleicht ging {key} hinaus; bekommt ein Blatt",
    ),
    "letter unknown": (
        "{name}: no mail address known, gets a sheet",
        "{name}: keine E-Mail bekannt, bekommt ein Blatt",
    ),
    "letter contact": ("The office: {contact}", "Das Büro: {contact}"),
    "letters one": ("1 sheet for 1 member is in {file}", "1 Blatt für 1 Mitglied ist in {file}"),
    "letters of one": (
        "{count} sheets for 1 member are in {file}",
        "{count} Blätter für 1 Mitglied sind in {file}",
    ),
    "letters left": ("Left out:", "Ausgelassen:"),
    "letters made": (
        "{count} sheets for {members} members are in {file}",
        "{count} Blätter für {members} Mitglieder sind in {file}",
    ),
    # The board's page.
    "report made in": ("the report is in {files}", "die Seite ist in {files}"),
    "report until": ("{year} to {day} {month}", "{year} bis {day}. {month}"),
    "report made on": ("made on {day}", "erstellt am {day}"),
    "report totals": ("The year in numbers", "Das Jahr in Zahlen"),
    "report made": ("bookings", "Buchungen"),
    "report cancelled": ("cancelled bookings", "abgesagte Buchungen"),
    "report slots": ("slots used", "genutzte Zeiten"),
    "report slots before": ("slots used the year before", "genutzte Zeiten im Jahr davor"),
    "report persons": ("persons", "Personen"),
    "report active": ("members who booked", "Mitglieder, die gebucht haben"),
    "report charged": ("points charged", "berechnete Punkte"),
    "report refunded": ("points refunded", "erstattete Punkte"),
    "report kept": ("points used", "verbrauchte Punkte"),
    "report share": ("share of open slots used", "Auslastung"),
    "report heat court": ("Courts by weekday and hour", "Plätze nach Wochentag und Stunde"),
    "report heat boat": ("Boats by weekday and hour", "Boote nach Wochentag und Stunde"),
    "report heat room": ("Rooms by weekday and hour", "Räume nach Wochentag und Stunde"),
    "report heat note": (
        "Each cell shows the percentage of the open slots that were used. Over all hours the percentage is {share}; in {period} the percentage was {before}.",
        "Jedes Feld zeigt, wie viel Prozent der offenen Zeiten genutzt wurden. Über alle Stunden sind es {share}, in {period} waren es {before}.",
    ),
    "report months": ("Points used, by month", "Verbrauchte Punkte nach Monaten"),
    "report facilities": ("Each court, boat and room", "Jeder Platz, jedes Boot, jeder Raum"),
    "report facility": ("name", "Name"),
    "report kind": ("kind", "Art"),
    "report court": ("court", "Platz"),
    "report boat": ("boat", "Boot"),
    "report room": ("room", "Raum"),
    "report members": ("The most active members", "Die aktivsten Mitglieder"),
    "report member": ("member", "Mitglied"),
    "report held": ("bookings not cancelled", "Buchungen ohne abgesagte"),
    "report place": ("rank {place}", "Platz {place}"),
    # Summaries of corrections.
    "in all": ("in all: {what}", "zusammen: {what}"),
    "cancelled": (
        "{count} bookings cancelled, {points} points back to {members}",
        "{count} Buchungen abgesagt, {points} Punkte zurück an {members}",
    ),
    "changes": ("{count} changes", "{count} Änderungen"),
    "cancelled one": (
        "1 booking cancelled, {points} points back to {members}",
        "1 Buchung abgesagt, {points} Punkte zurück an {members}",
    ),
    "members": ("{count} members", "{count} Mitglieder"),
    "slots closed": ("{count} slots closed", "{count} Zeiten gesperrt"),
    "slots closed one": ("1 slot closed", "1 Zeit gesperrt"),
    "slots opened": ("{count} slots opened", "{count} Zeiten geöffnet"),
    "slots opened one": ("1 slot opened", "1 Zeit geöffnet"),
}


# The column heads of lists that aren't comma-separated values, and the words in some cells.
HEADS = {
    "member": "Mitglied",
    "balance": "Punkte",
    "quota": "max. offen",
    "open": "offen",
    "keys": "Schlüssel",
    "name": "Name",
    "facility": "Anlage",
    "kind": "Art",
    "places": "Plätze",
    "price": "Preis",
    "opens": "öffnet",
    "shuts": "schließt",
    "key": "Schlüssel",
    "revoked": "widerrufen",
    "spent": "ausgegeben",
    "older root until": "altes Geheimnis bis",
    "day": "Tag",
    "hour": "Stunde",
    "number": "Nummer",
    "persons": "Personen",
    "charge": "berechnet",
    "cancelled": "abgesagt",
    "refund": "zurück",
    "credited": "gutgeschrieben",
    "charged": "berechnet",
    "refunded": "erstattet",
    "copy": "Kopie",
    "is": "ist",
    "age": "Alter",
    "bytes": "Bytes",
    "tested": "geprüft",
    "line": "Zeile",
    "as written": "wie geschrieben",
    "points": "Punkte",
    "yes": "ja",
    "no": "nein",
    "none": "keine",
    "court": "Platz",
    "boat": "Boot",
    "room": "Raum",
}
# argparse's messages for usage errors.
USAGE = {
    "usage: ": "Aufruf: ",
    "%(prog)s: error: %(message)s\n": "%(prog)s: Fehler: %(message)s\n",
    "the following arguments are required: %s": "es fehlen: %s",
    "unrecognized arguments: %s": "zu viel: %s",
    "argument %(argument_name)s: %(message)s": "%(argument_name)s: %(message)s",
    "invalid choice: %(value)r (choose from %(choices)s)": "%(value)r gibt es nicht; es gibt %(choices)s",
    "expected one argument": "ein Wert fehlt",
    "positional arguments": "Argumente",
    "options": "Optionen",
    "show this help message and exit": "zeigt diese Hilfe",
}


def language():
    """Returns German if the clerk's language is German, otherwise English."""
    value = next(filter(None, (os.environ.get(it) for it in ("LC_ALL", "LC_MESSAGES", "LANG"))), "")
    return "de" if value.startswith("de") else "en"


def say(text, /, **values):
    found = TEXTS.get(text) or REFUSALS[text]
    return found[LANGUAGES.index(language())].format(**values)


def head(word):
    """Returns a column head or a cell's word in the clerk's language."""
    return HEADS.get(word, word) if language() == "de" else word


def usage(text):
    return USAGE.get(text, text) if language() == "de" else text


def in_language(line):
    """Returns a fixed text of clubdesk or the desk in the clerk's language."""
    return GERMAN.get(line, line) if language() == "de" else line


def means(text, answer):
    """Returns whether an answer is one of a text's words, such as those of `yes`."""
    return answer.strip().lower() in say(text).split()


def day_text(day):
    """Returns a day in the clerk's language, such as Saturday 5 December 2026."""
    weekday, month = WEEKDAYS[language()][day.weekday()], MONTHS[language()][day.month - 1]
    return (
        f"{weekday}, {day.day}. {month} {day.year}"
        if language() == "de"
        else f"{weekday} {day.day} {month} {day.year}"
    )
