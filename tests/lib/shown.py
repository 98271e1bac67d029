"""Finds out which definitions the vectors in docs/vectors.json exercise, by running the reference
in Python (tests/reference) on the vectors.

Each function of the reference computes in Python what some definitions in specs/ state. `WRITTEN`
lists these definitions for each function. The mark of a definition is `all` if the vectors run each
line of its functions, `part` if they run only some lines, and `none` if they run no line. Lines of
planted faults don't count."""

import ast
import copy
import json
import re
import sys
from pathlib import Path

from both import KINDS_OF_VALUES, expect
from kinds import Row
from reference import caveats, club as rules, passes, wire

ROOT = Path(__file__).resolve().parents[2]
REFERENCE = ROOT / "tests" / "reference"
VECTORS = ROOT / "docs" / "vectors.json"

# Each key is one or more functions of the reference. The value lists the definitions of these
# functions by module, as `CRATE.FILE: NAME ..`.
WRITTEN = {
    "passes.sign": "pass_mac.Hmac: block_len short_key key_block masked_block hmac",
    "passes.chain": "pass_mac.Chain: derivation_key derived_key extended_signature chain",
    "passes.Pass.is_signed": "pass_forms.Pass: Plain IsSigned",
    "passes.minted": "club_gate.DecodedPass: identifier_of",
    "passes.WidePass.pass_or_fault": (
        "pass_forms.Pass: WideCaveat WidePass is_third_party has_third_party widened_caveat"
        " as_wide_pass first_party_caveat first_party; pass_forms.Reading: max_caveats IsReadAs"
    ),
    "passes.Packets.peek passes.packet": (
        "pass_forms.V1: hex_digit four_hex_digits packet_len packet FitsPacket"
    ),
    "passes.Packets.take_if": "pass_forms.V1: optional_packet",
    "passes.read_v1 passes.v1_bytes": (
        "pass_forms.V1: caveat_packets packets_of FitsCaveat FitsPackets SpellsV1"
    ),
    "passes.Fields.number passes.varint": "pass_forms.V2: groups varint",
    "passes.Fields.take passes.v2_field": "pass_forms.V2: field",
    "passes.Fields.take_if": "pass_forms.V2: optional_field",
    "passes.Fields.end": "pass_forms.V2: end_of_section",
    "passes.read_v2 passes.v2_bytes": "pass_forms.V2: types caveat_section sections SpellsV2",
    "passes.json_bytes_of": "pass_json.Json: IsField",
    "passes.json_caveat": "pass_json.Json: caveat_names IsCaveatObject",
    "passes.is_whole_two": "pass_json.Json: IsVersion",
    "passes.read_json json_values.json_value": (
        "pass_json.Json: HasOnly pass_names AreCaveats IsCaveatList IsPass SpellsJson"
    ),
    "passes.from_base64": "pass_forms.Envelope: IsBase64",
    "passes.read_wide": (
        "pass_forms.Envelope: starts_with_brace is_lower_hex_digit form_of_byte form_of Wraps; "
        "pass_json.AnyForm: SpellsForm"
    ),
    "passes.read": (
        "pass_forms.Reading: max_text_len; pass_forms.Envelope: SpellsText IsTextReading;"
        " pass_json.AnyForm: IsAnyReading"
    ),
    "caveats.day_of": (
        "club_values.Moment: first_day last_day IsDay date_text march_year day_of_march_year"
        " march_month year_of month_of day_of_month day_text; club_values.Number: four_digits"
    ),
    "caveats.hour_of": "club_values.Moment: hours_a_day IsHour; club_values.Number: two_digits",
    "caveats.moment_of": (
        "club_values.Moment: minutes_an_hour minutes_a_day first_moment last_moment IsMoment"
        " time_text moment_text"
    ),
    "caveats.number_of": "club_values.Number: number_limit",
    "caveats.facility_test": (
        "club_values.Name: is_name_byte max_name_len IsName; pass_caveats.Choices: max_names"
        " AreNames; pass_caveats.Choices: comma_parts comma_list"
    ),
    "caveats.kind_test": "club_values.Kind: kind_text; pass_caveats.Caveat: is_kind",
    "caveats.weekday_test": (
        "club_values.Kind: weekdays weekday_of; pass_caveats.Choices: weekday_text has_weekday"
        " weekday_texts"
    ),
    "caveats.actions_test caveats.listed": (
        "club_values.Kind: action_text; pass_caveats.Choices: all_actions has_action action_texts"
    ),
    "caveats.guests_test": "club_values.Moment: guests_limit",
    "caveats.facility_test caveats.kind_test caveats.hours_test caveats.days_test caveats.weekday_test caveats.until_test caveats.guests_test caveats.spend_test caveats.actions_test": (
        "pass_caveats.Caveat: CaveatRow row caveat_row IsCaveat caveat_text Permits;"
        " pass_caveats.Caveat: in_slot permits"
    ),
    "caveats.test_of": "pass_caveats.Caveat: SpellsCaveat max_caveat_len Understood",
    "caveats.first_fault": "pass_caveats.Fault: Allows Allowed first_fault_from first_fault_of",
    "club.Club.__init__": "club_core.Club: Club empty_club",
    "club.start_of": "club_values.Moment: start_of",
    "club.Club.bookings_of": "club_core.Club: keys_of is_key_of bookings_of",
    "club.Club.spent": "club_core.Club: cost_of is_under spent_under",
    "club.Club.balance": "club_core.Club: balance_of",
    "club.Club.open_count": "club_core.Club: is_to_come count_to_come",
    "club.Club.taken": (
        "club_core.Club: is_in taken_in; club_rows.Rows: persons_of; club_core.Basis: slot_use_by"
        " slot_use"
    ),
    "club.Club.good_roots": (
        "club_rows.Rows: older_root_at; club_core.Request: IsGoodRoot IsSignedUnder is_signed_under"
    ),
    "club.Club.ask_of": (
        "club_core.Answer: owed_at ask_of; club_core.Request: request_action request_guests"
        " request_slot request_number"
    ),
    "club.Club.ask": (
        "club_core.Answer: form_refusal after_caveats answer_by_view answer_to answer_by_basis"
        " verdict_in; club_core.Laws: IsServed IsAllowedBy IsAcceptedPass IsAcceptedIn;"
        " club_core.Basis: SlotState state_of Basis key_of basis_under basis_of view_of;"
        " club_rows.Rows: row_of_key; club_core.Club: key_named member_named facility_named;"
        " club_core.Request: Pass Words; club_core.Verdict: verdict_of reply_only refusal_verdict;"
        " club_gate.DecodedPass: key_name_in; club_gate.DecodedPass: IsSeenAs fault_of IsDecoded"
        " AreWordsOf"
    ),
    "club.Club.decide_view": "club_core.Verdict: shown_at; club_core.Club: is_closed",
    "club.Club.decide_account": "club_core.Verdict: account_verdict",
    "club.Club.booked": "club_core.Verdict: booked_before",
    "club.Club.decide_book": (
        "club_core.Verdict: new_booking booked_now repeat_booking_verdict book_lines new_verdict"
        " recorded_or book_verdict; club_core.Verdict: Line line_if first_of; club_rows.Rows:"
        " same_slot; club_rows.Rows: charge_of is_open_at booking_window is_bookable;"
        " club_core.Club: booking_under"
    ),
    "club.Club.decide_cancel club.Club.mark_cancelled": (
        "club_core.Verdict: cancelled_now cancelled_before cancel_lines cancel_recorded_verdict"
        " unknown_verdict cancel_verdict; club_core.After: is_marked cancelled_booking"
    ),
    "club.Club.refund": "club_rows.Rows: full_refund_ahead refund_at",
    "club.Club.command_credit": (
        "club_core.Office: points_limit are_points credit_verdict; club_core.After:"
        " credited_member; club_rows.Rows: credited_limit"
    ),
    "club.Club.command_revoke_key": "club_core.After: revoked_key",
    "club.Club.command_rotate_key": (
        "club_core.Office: rotate_verdict; club_core.After: good_until rotated_key"
    ),
    "club.Club.command_close_slot": "club_core.Office: close_verdict",
    "club.Club.command_open_slot": "club_core.After: closed_but",
    "club.Club.command_debit": "club_core.Office: debit_verdict; club_core.After: debited_member",
    "club.Club.command_set_facility club.Club.most_taken": (
        "club_core.Club: is_at most_taken_in; club_core.After: facility_with_numbers"
    ),
    "club.Club.command_cancel_booking": (
        "club_core.Office: office_cancel_verdict; club_laws.Repeats: refund_by_office"
    ),
    "club.Club.command_set_quota": "club_core.After: member_with_quota",
    "club.Club.command_add_member club.Club.command_add_facility club.Club.command_add_key club.are_limits": (
        "club_core.Office: are_limits command_verdict office_verdict; club_rows.Rows: quota_limit"
        " places_limit price_limit shutting_limit"
    ),
    "wire.values": "http_request.Fields: same_word values_of",
    "wire.split": (
        "http_request.Frame: header_fields HasNoPiece IsRefusedHead IsWhole; http_request.Frame:"
        " empty_line IsPiece IsHeadOf; http_request.Length: max_head_len max_fields"
    ),
    "wire.body_of": (
        "http_request.Frame: AsksForBody IsFramed; http_request.Length: max_body_len;"
        " http_request.Length: body_length length_in declared_length where_allowed unless_coded"
        " asked_length"
    ),
    "wire.guests_in": (
        "http_request.Body: only_named has_only_name whole_number few_guests guests_of_value"
        " json_value_of guests_in"
    ),
    "wire.slot_request": (
        "http_request.Path: with_front segments; "
        "http_request.Path: slot_parts place_parts HasRealValues IsPlace IsPlaceOf; "
        "club_values.Number: max_digits are_few_digits number_of_digits"
    ),
    "wire.decoded": (
        "http_request.Pass: bearer_text only_text pass_text_of; http_request.Words: DecodedRequest"
        " guests_by_method request_at decoded_request IsRequestReading"
    ),
    "wire.compact": (
        "http_response.Body: Value truth_text value_text Member name_text member_text object_text"
    ),
    "wire.reply_bytes": (
        "http_response.Body: booking_member caveat_member members_of body_text; http_response.Text:"
        " refusal_status status_of methods_of; http_response.Text: phrase_of status_line"
        " challenge_field allow_field head_text reply_text; club_core.Refusal: RefusalDetails"
        " details details_of caveat_of_refusal"
    ),
}


# ---- the vectors


def bytes_of(owner, name):
    return bytes.fromhex(owner[f"{name}_hex"]) if f"{name}_hex" in owner else owner[name].encode()


def pass_of(vector):
    listed = [
        bytes.fromhex(it["hex"]) if isinstance(it, dict) else it.encode()
        for it in vector["caveats"]
    ]
    return passes.Pass(
        bytes_of(vector, "location"),
        bytes_of(vector, "identifier"),
        listed,
        bytes.fromhex(vector["signature"]),
    )


def check_passes(vectors):
    for vector in vectors["passes"]:
        it = pass_of(vector)
        for form in passes.FORMS:
            expect(f"{vector['what']} in {form}", passes.read(vector[form].encode()), it)
            expect(
                f"the text of {vector['what']} in {form}",
                passes.text_of(it, form).decode(),
                vector[form],
            )
        if "root" in vector:
            root = bytes.fromhex(vector["root"])
            expect(f"{vector['what']}, signed", it.is_signed(root), True)
            expect(f"{vector['what']}, under another root", it.is_signed(root + b"\x01"), False)
            without = passes.minted(root, it.identifier, it.location)
            narrowed = [without.signature.hex()]
            for caveat in it.caveats:
                without = without.narrowed(caveat)
                narrowed.append(without.signature.hex())
            expect(f"signatures of {vector['what']}", narrowed, vector["signatures"])
    for vector in vectors["also read as the third pass"]:
        expect(vector["what"], passes.read(vector["text"].encode()), pass_of(vectors["passes"][2]))


# The number of the desk's fault for the text of each passtool fault. passtool numbers these faults
# differently.
FAULTS = {
    "too long": passes.TOO_LONG,
    "malformed": passes.MALFORMED,
    "third-party caveat": passes.THIRD_PARTY,
    "too many caveats": passes.TOO_MANY,
}


def check_faults(vectors):
    for vector in vectors["not passes"]:
        try:
            found = passes.read(vector["text"].encode())
        except passes.NoPass as fault:
            found = fault.fault
        expect(vector["what"], found, FAULTS[vector["fault"].partition(": ")[2]])


READERS = {
    "word": lambda word: int(word) if word.isdigit() else word,
    "root": bytes.fromhex,
    "moment": caveats.moment_of,
    "day": caveats.day_of,
    "hour": caveats.hour_of,
}


def command_of(line):
    """Returns the name and the values of the command in a line `clubdesk COMMAND CLUB VALUE ..`."""
    name, _, *words = line.split()[1:]
    return [
        name,
        *(
            READERS[kind](word)
            for kind, word in zip(
                KINDS_OF_VALUES.get(name, ["word"] * len(words)), words, strict=True
            )
        ),
    ]


def made_club(commands):
    """Returns a club that these commands make, and the pass of the club's first key."""
    made, first = rules.Club(), None
    for command in map(command_of, commands):
        made.command(command)
        if command[0] == "add-key" and first is None:
            first = passes.minted(command[3], b"key:" + command[1].encode())
    return made, first


def check_caveats(vectors):
    made, amy = made_club(vectors["club"]["commands"])
    listed = [
        (it["caveat"], {name: it[name] for name in vectors["asks"]}) for it in vectors["caveats"]
    ]
    listed += [
        (it, dict.fromkeys(("book", "account"), "not understood"))
        for it in vectors["not understood"]
    ]
    for caveat, verdicts in listed:
        text = passes.text_of(amy.narrowed(caveat.encode()), "v2").decode()
        for name, verdict in verdicts.items():
            asked = vectors["asks"][name]
            row = Row(
                asked["method"],
                asked["path"],
                f'{{"guests":{asked["guests"]}}}' if "guests" in asked else None,
                text,
            )
            reply = wire.exchange(copy.deepcopy(made), row.data, caveats.moment_of(asked["at"]))
            fault = json.loads(reply.partition(b"\r\n\r\n")[2]).get("fault")
            expect(
                f"{caveat!r} of {name}",
                {11: "not understood", 12: "denies"}.get(fault, "allows"),
                verdict,
            )


def reply_in(made, exchange):
    return wire.exchange(
        made, exchange["request"].encode(), caveats.moment_of(exchange["at"])
    ).decode()


def check_runs(vectors):
    for run in vectors["runs"]:
        made, _ = made_club(vectors["club"]["commands"])
        for exchange in run["exchanges"]:
            expect(run["what"], reply_in(made, exchange), exchange["reply"])


def printed_by(made, line):
    try:
        made.command(command_of(line))
    except rules.CommandRefused as refusal:
        return f"refused: {refusal}"
    return "done"


def check_office(vectors):
    for run in vectors["office"]:
        made, _ = made_club(vectors["club"]["commands"])
        for step in run["steps"]:
            if "command" in step:
                expect(
                    f"{run['what']}: {step['command']}",
                    printed_by(made, step["command"]),
                    step["prints"],
                )
            else:
                expect(run["what"], reply_in(made, step), step["reply"])


def check_all():
    vectors = json.loads(VECTORS.read_text(encoding="utf-8"))
    for check in (check_passes, check_faults, check_caveats, check_runs, check_office):
        check(vectors)


# ---- which lines they run


def lines_run():
    """Returns each line of the reference that the vectors run, as (file, first line of the
    function, name of the function, line)."""
    found = set()

    def trace(frame, event, _value):
        code = frame.f_code
        if not code.co_filename.startswith(str(REFERENCE)):
            return None
        if event == "line":
            found.add(
                (Path(code.co_filename).stem, code.co_firstlineno, code.co_name, frame.f_lineno)
            )
        return trace

    before = sys.gettrace()
    sys.settrace(trace)
    try:
        check_all()
    finally:
        sys.settrace(before)
    return found


def codes_in(code):
    yield code
    for it in code.co_consts:
        if hasattr(it, "co_code"):
            yield from codes_in(it)


def lines_of_functions():
    """Returns the lines of each function of the reference, in the form that `lines_run` returns.
    Leaves out lines of planted faults."""
    found = {}
    for path in sorted(REFERENCE.glob("*.py")):
        text = path.read_text(encoding="utf-8")
        tree = ast.parse(text)
        planted = {
            line
            for it in ast.walk(tree)
            if isinstance(it, ast.If) and re.match(r"(self\.)?plant\b", ast.unparse(it.test))
            for part in it.body
            for line in range(part.lineno, part.end_lineno + 1)
        }
        codes = list(codes_in(compile(text, str(path), "exec")))
        owners = [("", it) for it in tree.body] + [
            (f"{top.name}.", it)
            for top in tree.body
            if isinstance(top, ast.ClassDef)
            for it in top.body
        ]
        for owner, it in owners:
            if isinstance(it, ast.FunctionDef):
                body = it.body[1:] if ast.get_docstring(it) else it.body
                first = body[0].lineno
                found[f"{path.stem}.{owner}{it.name}"] = {
                    (path.stem, code.co_firstlineno, code.co_name, line)
                    for code in codes
                    if it.lineno <= code.co_firstlineno <= it.end_lineno
                    and code.co_name != "<module>"
                    for _, _, line in code.co_lines()
                    if line
                    and line >= first
                    and line not in planted
                    and line != code.co_firstlineno
                    or line
                    and code.co_name == "<lambda>"
                    and line >= first
                }
    return found


def marks():
    """Returns the mark `all`, `part` or `none` of each definition (crate, file, name)."""
    run, functions = lines_run(), lines_of_functions()
    found = {}
    for names, listed in WRITTEN.items():
        lines = set().union(*(functions[name] for name in names.split()))
        mark = "all" if lines <= run else "part" if lines & run else "none"
        for group in listed.split("; "):
            place, _, words = group.partition(": ")
            for word in words.split():
                found[(*place.split("."), word)] = mark
    return found
