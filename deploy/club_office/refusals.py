"""The office's refusals in English and German, as a table with an entry for each text."""

REFUSALS = {
    "refused": ("refused: {why}", "abgelehnt: {why}"),
    "bad value": ("bad value: {what}", "falscher Wert: {what}"),
    "storage failed": ("storage failed: {why}", "Speicherfehler: {why}"),
    "nothing changed": ("{why}; nothing changed", "{why}; nichts geändert"),
    # Values.
    "no name of": (
        "{word!r} is not a name: a name has 1 to 24 characters from a-z, 0-9 and -, and doesn't begin with -",
        "{word!r} ist kein Name: ein Name hat 1 bis 24 Zeichen aus a-z, 0-9 und - und beginnt nicht mit -",
    ),
    "no number of": (
        "{word!r} is not a number from {least} to {most}",
        "{word!r} ist keine Zahl von {least} bis {most}",
    ),
    "no day of": (
        "{word!r} is not a day (YYYY-MM-DD, 2000 to 2099)",
        "{word!r} ist kein Tag JJJJ-MM-TT von 2000 bis 2099",
    ),
    "no days of": (
        "{word!r} is not a range FIRST..LAST: LAST must be 0 to 400 days after FIRST",
        "{word!r} ist kein Zeitraum ERSTER..LETZTER: LETZTER muss 0 bis 400 Tage nach ERSTER liegen",
    ),
    "no hours of": (
        "{word!r} is not a range of hours FROM-TO, such as 8-22",
        "{word!r} sind keine Stunden VON-BIS, etwa 8-22",
    ),
    "no weekday": ("{word!r} is not a weekday such as tue", "{word!r} ist kein Wochentag, etwa di"),
    "no moment": (
        "{word!r} is not a moment (YYYY-MM-DDTHH:MM, 2000 to 2099)",
        "{word!r} ist kein Zeitpunkt von 2000 bis 2099: schreib JJJJ-MM-TT, dann T und die Uhrzeit, etwa 2026-12-05T18:00",
    ),
    "no copy name": (
        "{word!r} is not the name of a copy: `copies` lists the names",
        "{word!r} ist kein Name einer Kopie: `copies` zeigt die Namen",
    ),
    "no reason": (
        "{word!r} is not a reason of 1 to {most} printable characters",
        "{word!r} ist kein Grund aus 1 bis {most} druckbaren Zeichen",
    ),
    "no club name": ("{word!r} is not the name of a club", "{word!r} ist kein Name eines Vereins"),
    "no place": (
        "{text!r} is neither HOST:FOLDER, such as backup@elsewhere.example:clubs/club, nor an absolute path",
        "{text!r} ist weder RECHNER:ORDNER, etwa backup@anderswo.example:clubs/club, noch ein absoluter Pfad",
    ),
    "too many words": (
        "more than {words} arguments, or an argument longer than {bytes} bytes",
        "mehr als {words} Argumente, oder ein Argument mit mehr als {bytes} Bytes",
    ),
    # Refusals about the configuration, the club's file, and programs.
    "no such club": (
        "no club {word} is configured: there is no {path}",
        "kein Verein {word} ist eingerichtet: es gibt kein {path}",
    ),
    "no club at all": (
        "{path} configures no club: root sets up a club with clubdesk-setup",
        "in {path} ist kein Verein eingerichtet: root richtet mit clubdesk-setup einen ein",
    ),
    "several clubs": (
        "this machine has several clubs: give one of {clubs}, as in `office CLUB`",
        "auf diesem Rechner gibt es mehrere Vereine: gib einen von {clubs} an, also `office VEREIN`",
    ),
    "cannot be read": ("{path} can't be read: {fault}", "{path} lässt sich nicht lesen: {fault}"),
    "cannot be written": (
        "{path} can't be written: {fault}",
        "{path} lässt sich nicht schreiben: {fault}",
    ),
    "no file line": (
        "{path} has no line FILE=PATH with an absolute path",
        "{path} hat keine Zeile FILE=PFAD mit absolutem Pfad",
    ),
    "no old year": (
        "there is no file of the year {year}; `new-year` makes it",
        "es gibt keine Datei von {year}: `new-year` legt sie an",
    ),
    "no program": ("the program {path} is missing", "das Programm {path} fehlt"),
    "at is to come": (
        "--at {at} is in the future: it is now {now}",
        "--at {at} liegt in der Zukunft: jetzt ist {now}",
    ),
    "file of another": (
        "{path} is the file of the club {club}, but this club needs that name for one of its own files: give one club's file another name",
        "{path} ist die Datei des Vereins {club} und heißt wie eine Datei, die zu diesem Verein gehört: eine der beiden braucht einen anderen Namen",
    ),
    "no club file": (
        "there is no file {path}; `office {club} new` makes it",
        "es gibt keine Datei {path}; `office {club} new` legt sie an",
    ),
    "exists": ("the file {path} already exists", "die Datei {path} gibt es schon"),
    "old year": (
        "{club} is an old year: `office` can only print its lists, sheets and records",
        "{club} ist ein altes Jahr: davon gibt es nur Listen, Tageslisten und Buchungslisten",
    ),
    "clerk's side": (
        "{command} doesn't run with --desk or --own",
        "{command} läuft nicht mit --desk oder --own",
    ),
    "root from input": (
        "{command}: with --desk or --own, give --root-stdin, without ROOT or --to",
        "{command}: gib mit --desk oder --own auch --root-stdin an, ohne GEHEIMNIS und --to",
    ),
    "club unread": (
        "the club's file can't be read",
        "die Datei des Vereins lässt sich nicht lesen",
    ),
    "no pages": (
        "the configuration of {club} needs lines such as PAGES=/var/www/{club} and ZONE_NAME=Europe/Berlin",
        "die Einrichtung von {club} braucht Zeilen wie PAGES=/var/www/{club} und ZONE_NAME=Europe/Berlin",
    ),
    "no site": (
        "the configuration of {club} has no line SITE=https://ADDRESS",
        "die Einrichtung von {club} hat keine Zeile SITE=https://ADRESSE",
    ),
    "spares": (
        "SPARES or SPARE_NAME in the configuration of {club}: {fault}",
        "SPARES oder SPARE_NAME in der Einrichtung von {club}: {fault}",
    ),
    # Commands and the book.
    "waits": ("waiting for another command", "wartet auf einen anderen Befehl"),
    "order under way": (
        "another command has been running for {seconds} seconds",
        "ein anderer Befehl läuft seit {seconds} Sekunden",
    ),
    "book unwritten": (
        "the command ended with status {status}, but the book can't be written: {fault}",
        "der Befehl endete mit Status {status}, aber das Protokoll lässt sich nicht schreiben: {fault}",
    ),
    "command undone": (
        "{order}: {said}. Repeat the command: nothing is done twice",
        "{order}: {said}. Gib den Befehl noch einmal ein: nichts geschieht doppelt",
    ),
    "rest not confirmed": (
        "not confirmed; the changes confirmed earlier are done",
        "nicht bestätigt; was zuvor bestätigt wurde, ist erledigt",
    ),
    "booked meanwhile": ("booked meanwhile: {slots}", "inzwischen gebucht: {slots}"),
    "names undone": (
        "{member} and the member's keys still have their old names: {why}. Repeat the command",
        "{member} und die Schlüssel haben noch die alten Namen: {why}. Gib den Befehl noch einmal ein",
    ),
    "debited otherwise": (
        "the credits of {member} have changed since this `debit` was interrupted on {moment}: see `log {member}`."
        " If you repeat the command, it starts from the beginning",
        "{member} hat andere Gutschriften, seit dieses `debit` am {moment} unterbrochen wurde: sieh in `log {member}` nach."
        " Gibst du den Befehl noch einmal ein, beginnt er von vorn",
    ),
    "order failed": ("{order}: status {status}", "{order}: Status {status}"),
    "journal unread": (
        "the journal can't be read: {fault}",
        "das Journal lässt sich nicht lesen: {fault}",
    ),
    # Names.
    "no row members": ("there is no member {name}", "es gibt kein Mitglied {name}"),
    "no row keys": ("there is no key {name}", "es gibt keinen Schlüssel {name}"),
    "no row facilities": ("there is no facility {name}", "es gibt keine Anlage {name}"),
    "both": ("{name} is both a member and a facility", "{name} ist ein Mitglied und eine Anlage"),
    "neither": (
        "{name} is neither a member nor a facility",
        "{name} ist weder ein Mitglied noch eine Anlage",
    ),
    "faults": ("{count} faults", "{count} Fehler"),
    # Corrections.
    "changed since": (
        "the club has changed since the planned changes were shown; nothing was done. Repeat the command",
        "beim Verein hat sich etwas geändert, seit die geplanten Änderungen gezeigt wurden; nichts getan. Gib den Befehl noch einmal ein",
    ),
    "file taken": (
        "another program has used {path} for {seconds} seconds; nothing changed. {said}",
        "ein anderes Programm benutzt {path} seit {seconds} Sekunden; nichts geändert. {said}",
    ),
    "other rows": (
        "{done} rows would change instead of {rows}; nothing changed",
        "{done} Zeilen statt {rows} würden sich ändern; nichts geändert",
    ),
    "other sums": (
        "this correction would change the club's sums; nothing changed",
        "die Summen des Vereins würden sich ändern; nichts geändert",
    ),
    "balance is": ("the balance of {member} is {balance}", "{member} hat {balance} Punkte"),
    "nothing to set": (
        "set-facility: nothing to set: give --price, --places or --hours",
        "set-facility: nichts zu ändern: gib --price, --places oder --hours an",
    ),
    "is booked at": (
        "the booking {key} {number} is on {day} at {hour:02d}:00",
        "die Buchung {key} {number} ist am {day} um {hour:02d}:00",
    ),
    "persons booked": (
        "{count} persons are booked for {day} {hour:02d}:00",
        "{count} Personen sind gebucht für {day} {hour:02d}:00",
    ),
    "not closed": ("{slot} isn't closed", "{slot} ist nicht gesperrt"),
    "none closed": (
        "neither {slot} nor any of the following hours is closed",
        "{slot} ist nicht gesperrt, und auch keine der Stunden danach",
    ),
    "number or all": (
        "cancel: give a NUMBER, or --all for all future bookings",
        "cancel: gib eine NUMMER an, oder --all für alles, was noch kommt",
    ),
    "none to come": ("{key} has no future bookings", "{key} hat keine Buchung, die noch kommt"),
    "cancelled already": (
        "booking {number} of {key} is already cancelled",
        "Buchung {number} von {key} ist schon abgesagt",
    ),
    "booking unknown": (
        "{key} has no booking {number}",
        "Buchung {number} von {key} gibt es nicht",
    ),
    "opens then": (
        "{facility} is open from {opens} to {shuts}",
        "{facility} ist von {opens} bis {shuts} Uhr offen",
    ),
    "all closed": ("all these slots are already closed", "alle diese Zeiten sind schon gesperrt"),
    "no such weekday": (
        "none of the given days falls on the given weekday",
        "keiner dieser Tage fällt auf diesen Wochentag",
    ),
    "nobody booked": ("nobody has booked these slots", "diese Zeiten hat niemand gebucht"),
    "is to come": ("{day} is in the future", "{day} liegt in der Zukunft"),
    "nothing carried": (
        "the file has nothing from before {day}, except points that were carried forward",
        "aus der Zeit vor dem {day} hat die Datei nur noch, was vorgetragen wurde",
    ),
    "no undo": (
        "there is no correction to undo; `office {club} copies` lists the copies from before corrections",
        "es gibt keine Korrektur, die sich zurücknehmen lässt; `office {club} copies` zeigt die Kopien von vorher",
    ),
    "touched since": (
        "{row} has changed since the correction; `office {club} copies` lists the copy from before the correction",
        "jemand hat {row} seither geändert; `office {club} copies` zeigt die Kopie von vorher",
    ),
    # Copies.
    "back-up unsound": (
        "the copy of the club is damaged; nothing changed",
        "die Kopie des Vereins ist beschädigt; nichts geändert",
    ),
    "log uncopied": (
        "SQLite's log can't be copied into the club's file; nothing changed",
        "das Log von SQLite lässt sich nicht in die Datei des Vereins übernehmen; nichts geändert",
    ),
    "uncopied": (
        "{path} can't be copied to {to}; nothing changed",
        "{path} lässt sich nicht nach {to} kopieren; nichts geändert",
    ),
    "unkept": (
        "{path} can't be copied; nothing changed",
        "{path} lässt sich nicht kopieren; nichts geändert",
    ),
    "no copy": (
        "there is no copy {called}; `office {club} copies` lists the copies",
        "es gibt keine Kopie {called}; `office {club} copies` zeigt sie",
    ),
    "not as sent": (
        "{called} at {place} differs from the copy sent there",
        "{called} auf {place} ist nicht das, was dorthin geschickt wurde",
    ),
    "copy unopened": (
        "clubdesk can't open the copy {called}: {said}",
        "clubdesk kann die Kopie {called} nicht öffnen: {said}",
    ),
    "copy unsound": (
        "the copy {called} has a fault: {fault}",
        "die Kopie {called} hat einen Fehler: {fault}",
    ),
    "no copy made": ("no copy can be made: {said}", "es lässt sich keine Kopie machen: {said}"),
    "not mounted": (
        "{place}: {fault}: is the folder mounted?",
        "{place}: {fault}: ist der Ordner eingehängt?",
    ),
    "own disk": (
        "{place} is on the disk of the club or of the system: is the folder mounted?",
        "{place} ist auf der Platte des Vereins oder des Systems: ist der Ordner eingehängt?",
    ),
    "no answer there": (
        "{place}: no answer within {seconds} seconds",
        "{place}: keine Antwort in {seconds} Sekunden",
    ),
    "said there": ("{place}: {said}", "{place}: {said}"),
    "script unrun there": (
        "{place}: the place answers, but doesn't run the commands that store and list copies",
        "{place}: der Ort antwortet, führt aber die Befehle zum Ablegen und Auflisten nicht aus",
    ),
    "odd list there": (
        "{place}: the place's list has a line that isn't about a copy: {line}",
        "{place}: die Liste des Orts hat eine Zeile, die keine Kopie nennt: {line}",
    ),
    "not there": (
        "{place}: the place doesn't have {name} as it was sent there",
        "{place}: der Ort hat {name} nicht so, wie es dorthin geschickt wurde",
    ),
    "too much there": (
        "{place}: the place sends more than {most} bytes",
        "{place}: der Ort schickt mehr als {most} Bytes",
    ),
    "not asked": (
        "{fault}; the copies there aren't listed",
        "{fault}; die Kopien von dort fehlen hier",
    ),
    "file unread": (
        "the club's file can't be read, and is kept next to the new one if the old file exists: {fault}",
        "die Datei des Vereins lässt sich nicht lesen und bleibt, falls es sie gibt, neben der neuen erhalten: {fault}",
    ),
    "file unsound": (
        "the club's file is damaged, and is kept next to the new one: {fault}",
        "die Datei des Vereins ist beschädigt und bleibt neben der neuen erhalten: {fault}",
    ),
    # The set-up, and restoring a lost club.
    "no club title": (
        "{text!r} is not a title: a title has at most {most} characters and no quotes",
        "{text!r} ist kein Vereinsname: er hat höchstens {most} Zeichen und keine Anführungszeichen",
    ),
    "no domain": (
        "{text!r} is not an address such as desk.example.org",
        "{text!r} ist keine Adresse, etwa desk.example.org",
    ),
    "no user name": (
        "{text!r} is not a user name such as anna",
        "{text!r} ist kein Benutzername, etwa anna",
    ),
    "no mail address of": ("{text!r} is not a mail address", "{text!r} ist keine E-Mail-Adresse"),
    "no person's account": (
        "{user} is the name of a system's user or group, and can't be a clerk",
        "{user} heißt ein Benutzer oder eine Gruppe des Systems und kann nicht im Büro arbeiten",
    ),
    "no answer": (
        "no answer to the question for --{option}",
        "keine Antwort auf die Frage nach --{option}",
    ),
    "no name for club": (
        "{word!r} is not the name of a club; give a name with --club, such as tennis",
        "{word!r} ist kein Name eines Vereins; gib mit --club einen Namen an, etwa tennis",
    ),
    "no short name": (
        "{word!r} is not a short name: it has 1 to {most} characters from a-z, 0-9 and -, such as tennis",
        "{word!r} ist kein kurzer Name: er hat 1 bis {most} Zeichen aus a-z, 0-9 und -, etwa tennis",
    ),
    "step failed": ("{line}: {said}", "{line}: {said}"),
    "unfit setting": (
        "{what}={value} can't be part of a proxy's configuration",
        "{what}={value} kann nicht in der Einrichtung eines Proxys stehen",
    ),
    "old lines": (
        "{count} lines of {path} differ from the package's example: with - the present lines, with + the package's",
        "{count} Zeilen von {path} sind anders als im Beispiel des Pakets: mit - die jetzigen, mit + die des Pakets",
    ),
    "caddy refuses": ("caddy doesn't accept {path}: {said}", "caddy lehnt {path} ab: {said}"),
    "files of one name": (
        "the files of this club and of the club {club} at {path} would have the same names; give another name with --club",
        "die Dateien dieses Vereins und die des Vereins {club} bei {path} hätten dieselben Namen; gib mit --club einen anderen Namen an",
    ),
    "no port free": (
        "no port is free from {first} to {last}",
        "kein Port von {first} bis {last} ist frei",
    ),
    "special setting": (
        'the value has one of the characters " \\ $ `',
        'der Wert hat eines der Zeichen " \\ $ `',
    ),
    "setting unknown": (
        "{what}={value} isn't written, because a configuration that comes from a place of copies can't set it",
        "{what}={value} wird nicht geschrieben, denn eine Einrichtung von einem Ort der Kopien kann das nicht bestimmen",
    ),
    "setting left": (
        "{what}={value} isn't written: {why}",
        "{what}={value} wird nicht geschrieben: {why}",
    ),
    "configuration anew": (
        "# A club of this machine. clubdesk-setup wrote this file anew, from the copies at {place}.",
        "# Ein Verein auf diesem Rechner. clubdesk-setup hat diese Datei neu geschrieben, nach den Kopien von {place}.",
    ),
    "lines left": (
        "{count} lines of {file} aren't written, because they have another form",
        "{count} Zeilen von {file} werden nicht geschrieben, denn sie haben eine andere Form",
    ),
    "file left": ("{file} isn't written: {why}", "{file} wird nicht geschrieben: {why}"),
    "other form": ("it has another form", "die Datei hat eine andere Form"),
    "place without copy": ("{place} has no copy {called}", "{place} hat keine Kopie {called}"),
    "place without tested": ("{place} has no tested copy", "{place} hat keine geprüfte Kopie"),
    "place without conf": (
        "{place} has only copies, and no configuration",
        "{place} hat nur die Kopien, keine Einrichtung",
    ),
    "place of several": (
        "{place} must have the configuration of exactly one club",
        "{place} muss die Einrichtung genau eines Vereins haben",
    ),
    "other copy": ("{why}; --copy chooses another copy", "{why}; --copy wählt eine andere Kopie"),
    "beside unread": (
        "the archive with the club's other files can't be read: {fault}",
        "das Archiv mit den übrigen Dateien des Vereins lässt sich nicht lesen: {fault}",
    ),
    # Refusals about passes, and about the clerk's files.
    "root or input": (
        "{command}: give a ROOT or --root-stdin, not both",
        "{command}: gib ein GEHEIMNIS oder --root-stdin an, nicht beides",
    ),
    "file there": ("the file {path} already exists", "die Datei {path} gibt es schon"),
    "file by now": (
        "a file {path} was created in the meantime",
        "eine Datei {path} gibt es inzwischen",
    ),
    "no leave": (
        "no permission to write to {path}; nothing was done",
        "keine Rechte, in {path} zu schreiben; nichts getan",
    ),
    "pass unwritten": (
        "the key {key} was added or changed, but its pass can't be written: {fault}. `lost-pass {key}` makes a new pass",
        "der Schlüssel {key} ist neu oder geändert, aber sein Pass lässt sich nicht schreiben: {fault}. `lost-pass {key}` macht einen neuen",
    ),
    "pass elsewhere": (
        "the key {key} was added or changed. Its pass is in {named}, because a file {path} was created in the meantime",
        "der Schlüssel {key} ist neu oder geändert. Inzwischen gibt es eine Datei {path}, darum ist sein Pass in {named}",
    ),
    "key of another": ("the key {key} belongs to {member}", "der Schlüssel {key} gehört {member}"),
    "at line": ("line {line}: {why}", "Zeile {line}: {why}"),
    "in file": ("{path}: {why}", "{path}: {why}"),
    "in line": ("{path}, line {line}: {why}", "{path}, Zeile {line}: {why}"),
    "other's file": (
        "the file {path} isn't this row's pass: move the file away, and repeat the import",
        "es gibt eine Datei {path}, die nicht der Pass dieser Zeile ist: verschieb sie und starte den Import noch einmal",
    ),
    "spare undone": (
        "{member} was added, but making the spare key {key} failed: {fault}. `office CLUB add-key {key} {member} --to {path}` makes it. "
        "If the key exists, `office CLUB lost-pass {key}` makes its pass",
        "{member} ist eingetragen, aber der Ersatzschlüssel {key} fehlt: {fault}. `office CLUB add-key {key} {member} --to {path}` macht ihn. "
        "Gibt es ihn schon, macht `office CLUB lost-pass {key}` seinen Pass",
    ),
    "row undone": (
        "the import of {member} is incomplete: fix the problem, and repeat the import",
        "{member} ist nicht fertig: behebe den Fehler und starte den Import noch einmal",
    ),
    "roots": (
        "import-row needs a key's roots on standard input, each with 64 hexadecimal digits",
        "import-row liest die Geheimnisse eines Schlüssels von der Standardeingabe, je 64 hexadezimale Ziffern",
    ),
    "twins": (
        "{path}: lines {lines} have the same {column}, {value}: use different names",
        "{path}: die Zeilen {lines} haben denselben Wert für {column}, {value}: gib ihnen verschiedene Namen",
    ),
    "too large": (
        "{path} is too large: a list of members has at most {most} MB",
        "{path} ist zu groß: eine Mitgliederliste hat höchstens {most} MB",
    ),
    "no such column": (
        "--columns {each}: write WHAT=COLUMN; WHAT is one of {whats}, and COLUMN one of {heads}",
        "--columns {each}: schreib WAS=SPALTE; WAS ist eines von {whats}, SPALTE eine von {heads}",
    ),
    "no heads": (
        "{path} needs a column `name`, or `first name` and `surname`; its first line has {heads}. --columns says which column is which",
        "{path} braucht eine Spalte `Name`, oder `Vorname` und `Nachname`; die erste Zeile hat {heads}. --columns sagt, welche Spalte was ist",
    ),
    "no column": (
        "{path} has no column {what}, which may also be called {names}; --{what} gives all members the same value",
        "{path} hat keine Spalte {what}, die auch {names} heißen kann; --{what} gibt allen denselben Wert",
    ),
    "is empty": ("{path} is empty", "{path} ist leer"),
    "other cells": (
        "more or fewer cells than in the first line",
        "mehr oder weniger Zellen als in der ersten Zeile",
    ),
    "no quota": ("the quota is missing", "die Anzahl der Buchungen fehlt"),
    "no points": ("the points are missing", "die Punkte fehlen"),
    # Persons, calls.
    "person too long": (
        "a name, mail address or telephone number has more than {most} characters, or an unprintable character",
        "Name, E-Mail oder Telefonnummer hat mehr als {most} Zeichen, oder eines, das sich nicht drucken lässt",
    ),
    "no mail address": ("the mail address is invalid", "das ist keine E-Mail-Adresse"),
    "no telephone": (
        "the telephone number has characters other than digits, spaces and +()/.-",
        "die Telefonnummer hat andere Zeichen als Ziffern, Leerzeichen und +()/.-",
    ),
    "no person": (
        "standard input has no personal data",
        "in der Standardeingabe sind keine Angaben zur Person",
    ),
    "desk silent": (
        "the desk on port {port} doesn't answer: {fault}",
        "der Server auf Port {port} antwortet nicht: {fault}",
    ),
    "desk says": ("the desk says: {text}", "der Server sagt: {text}"),
    "port of another": (
        "the server at port {port} belongs to the user {uid}, and not to the desk; no pass was sent to it",
        "der Server an Port {port} gehört dem Benutzer {uid} und nicht dem Verein; er hat keinen Pass bekommen",
    ),
    "reply untrue": (
        "the desk says that {slot} is done, but the club's file shows no change",
        "der Server meldet {slot} als erledigt, aber in der Datei des Vereins steht nichts davon",
    ),
    "other offer": (
        "{facility} now costs {price} points for each person and hour, has {places} places, and is open from {opens} to {shuts}",
        "{facility} kostet jetzt {price} Punkte je Person und Stunde, hat {places} Plätze und ist von {opens} bis {shuts} Uhr offen",
    ),
    "no office key": (
        "to book for {member}, the office needs a key, but no name is free for it",
        "für einen Büroschlüssel von {member} ist kein Name frei",
    ),
    "booked already": (
        "{slot} is already booked for {member}: {booking}; --again books once more",
        "{slot} ist für {member} schon gebucht: {booking}; --again bucht noch einmal",
    ),
    "no booking of": ("{member} has no booking of {slot}", "{member} hat keine Buchung von {slot}"),
    "no booking numbered": (
        "{member} has no booking {number} of {slot}",
        "{member} hat keine Buchung {number} von {slot}",
    ),
    "several bookings": (
        "{member} has several bookings of {slot}: {bookings}; --number chooses one",
        "{member} hat mehrere Buchungen von {slot}: {bookings}; --number wählt eine",
    ),
    "key revoked": (
        "the key {key} is revoked: `office {club} cancel {key} {number}` cancels the booking with a full refund",
        "der Schlüssel {key} ist widerrufen: `office {club} cancel {key} {number}` sagt ab, alle Punkte zurück",
    ),
    # The season.
    "given already": (
        "{label} was already given: {points} points to each of {members} members",
        "{label} wurde schon gutgeschrieben: {points} Punkte für jedes von {members} Mitgliedern",
    ),
    "begun otherwise": (
        "{label} was started with another number of points: {points}",
        "{label} wurde mit einer anderen Punktzahl begonnen: {points}",
    ),
    "credited otherwise": (
        "the credits of {member} have changed since {label} was interrupted: see `log {member}`, and in {path} correct the last line that"
        " contains `{label} {member}`",
        "{member} hat andere Gutschriften, seit {label} unterbrochen wurde: sieh in `log {member}` nach und berichtige in {path} die letzte Zeile, die"
        " `{label} {member}` enthält",
    ),
    "not credited": (
        "crediting {member} failed: status {status}; fix the problem, and repeat the command",
        "die Gutschrift für {member} ist gescheitert: Status {status}; behebe den Fehler und gib den Befehl noch einmal ein",
    ),
    # Letters, the page's list.
    "no code": (
        "the link's QR code can't be made: {said}",
        "der QR-Code für den Link lässt sich nicht machen: {said}",
    ),
    "no passes": ("there are no passes in {path}", "in {path} sind keine Pässe"),
    "no pass file": (
        "there is no pass {path}; `lost-pass {key}` makes a new pass",
        "es gibt keinen Pass {path}; `lost-pass {key}` macht einen anderen",
    ),
    "old pass": (
        "the pass in {path} is out of date, because {key} has a newer pass; `lost-pass {key} --to {path}` makes a new one",
        "der Pass in {path} ist veraltet, denn {key} hat einen neueren; `lost-pass {key} --to {path}` macht einen neuen",
    ),
    "no passes given": ("standard input has no passes", "in der Standardeingabe sind keine Pässe"),
    "no one-line pass": (
        "the file has no pass on a single line",
        "darin ist kein Pass in einer Zeile",
    ),
    "no key's pass": (
        "the file has a pass that isn't for a key",
        "darin ist kein Pass eines Schlüssels",
    ),
    "pass of another": (
        "the file has a pass of another key, {key}",
        "darin ist der Pass eines anderen Schlüssels, {key}",
    ),
    "no such key": (
        "the club has no key {key}, or it is revoked",
        "der Verein hat keinen Schlüssel {key}, oder er ist widerrufen",
    ),
    "no zone name": (
        "{zone} is not the name of a time zone",
        "{zone} ist kein Name einer Zeitzone",
    ),
    "no zone": (
        "there is no time zone {zone} in {path}",
        "es gibt keine Zeitzone {zone} in {path}",
    ),
    "other zone": (
        "the rule of {zone} is {found}, but the server's rule is {rule}: one of the two time zones is wrong",
        "die Regel von {zone} ist {found}, aber die des Servers ist {rule}: eine der beiden Zeitzonen ist falsch",
    ),
    "no file": ("there is no file {path}", "es gibt keine Datei {path}"),
    "no UTF-8": (
        "not UTF-8, perhaps because another program wrote the umlauts: save the file as UTF-8",
        "kein UTF-8, etwa mit Umlauten eines anderen Programms: speichere die Datei als UTF-8",
    ),
    "club without": ("the club has no facility {name}", "der Verein hat keine Anlage {name}"),
    "titled already": (
        "{name} already has a title, in line {line}",
        "{name} hat schon einen Titel, in Zeile {line}",
    ),
    "no sentence": (
        "the sentence after | is missing, has an unprintable character, or has more than {most} characters",
        "der Satz nach | fehlt, hat ein Zeichen, das sich nicht drucken lässt, oder mehr als {most} Zeichen",
    ),
    "no title": ("{name} has no title", "{name} hat keinen Titel"),
    "title unprinted": (
        "the title has an unprintable character",
        "der Titel hat ein Zeichen, das sich nicht drucken lässt",
    ),
    "title too long": (
        "the title has more than {most} characters",
        "der Titel hat mehr als {most} Zeichen",
    ),
    "setting unprinted": (
        "{what} has an unprintable character, or more than {most} characters",
        "{what} hat ein Zeichen, das sich nicht drucken lässt, oder mehr als {most} Zeichen",
    ),
    "no address": (
        "{what} is not an address such as https://club.example/imprint",
        "{what} ist keine Adresse, etwa https://club.example/imprint",
    ),
    "no logo": (
        "{path}: a logo must be an SVG, PNG, JPEG or WebP file of at most {most} bytes",
        "{path}: ein Logo ist ein SVG, PNG, JPEG oder WebP von höchstens {most} Bytes",
    ),
    "club name unprinted": (
        "the club's name has an unprintable character, or isn't UTF-8",
        "der Name des Vereins hat ein Zeichen, das sich nicht drucken lässt, oder ist kein UTF-8",
    ),
    "page of before": (
        "the page still shows the club's earlier state: {fault}",
        "die Seite zeigt noch den früheren Stand: {fault}",
    ),
    "reason unwritten": (
        "the reason can't be written: {fault}",
        "der Grund lässt sich nicht schreiben: {fault}",
    ),
    # Texts of `check` about wrong totals.
    "used off": (
        "member {member}: {used} points are stored as used, but the bookings cost {spent}",
        "Mitglied {member}: {used} Punkte sind als verbraucht vermerkt, aber die Buchungen kosten {spent}",
    ),
    "taken off": (
        "slot {facility} {day} {hour}: the bookings have {persons} more persons than stored",
        "Zeit {facility} {day} {hour}: die Buchungen haben {persons} Personen mehr als vermerkt",
    ),
    "limit balance": ("balance below 0: {row}", "Punktestand unter 0: {row}"),
    "limit hours": (
        "the opening hour isn't before the closing hour: {row}",
        "die Öffnungszeit liegt nicht vor der Schließzeit: {row}",
    ),
    "limit places": ("more persons than places: {row}", "mehr Personen als Plätze: {row}"),
    "limit refund": (
        "refund without a cancellation, or above the charge: {row}",
        "Erstattung ohne Absage oder über dem Preis: {row}",
    ),
    "limit reference": (
        "this row refers to a missing row: {row}",
        "diese Zeile verweist auf eine fehlende: {row}",
    ),
}

# German translations of clubdesk's fixed texts about a command, and of the desk's fixed texts about a request.
GERMAN = {
    "refused: exists": "abgelehnt: gibt es schon",
    "refused: unknown": "abgelehnt: gibt es nicht",
    "refused: out of range": "abgelehnt: zu viel oder zu wenig",
    "bad value": "falscher Wert",
    "storage failed": "Speicherfehler",
    "no answer": "keine Antwort",
    "no such facility": "diese Anlage gibt es nicht",
    "no such booking": "diese Buchung gibt es nicht",
    "not bookable": "nicht zu buchen: schon begonnen, nicht offen, oder mehr als 60 Tage im Voraus",
    "slot closed": "gesperrt",
    "no places": "keine Plätze frei",
    "quota reached": "schon so viele offene Buchungen wie erlaubt",
    "balance too low": "zu wenige Punkte",
    "slot has begun": "schon begonnen",
    "unavailable": "nicht erreichbar",
}
