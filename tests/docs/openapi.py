#!/usr/bin/env -S /usr/bin/python3 -B -m pytest -q -p no:cacheprovider
"""Each kind of reply that the server gives is right byte for byte, and docs/openapi.yaml describes
it.

The replies are the rows of the table in tests/lib/kinds.py. The file docs/openapi.yaml obeys the
schema of OpenAPI 3.0, and each of its examples equals one of these replies.

The schema comes from Debian's openapi-specification. A scene of the table is a list of requests and
commands. The test runs each scene with a new server for each request. If a reply depends on earlier
requests, the server must find their effects in the file. The bytes of a reply must equal those of
the rules in Python. The status, fields and body of the reply must match the description and obey
its schema. docs/openapi.yaml has the same faults and statuses as the table of docs/CLIENT.md.
"""

import json
import re
from pathlib import Path

import jsonschema
import pytest
import yaml

import desk
import kinds
from conftest import Reply
from reference.wire import compact

pytestmark = [
    pytest.mark.pages,
    pytest.mark.programs,
    pytest.mark.quick,
    pytest.mark.needs("clubdesk"),
    pytest.mark.wants("python3-jsonschema python3-yaml openapi-specification"),
]

DOCS = desk.ROOT / "docs"
SCHEMA = Path("/usr/share/openapi-specification/schemas/v3.0/schema.json")
DOCUMENT = yaml.safe_load((DOCS / "openapi.yaml").read_text(encoding="utf-8"))
RESOLVER = jsonschema.RefResolver.from_schema(DOCUMENT)


def found(part):
    """Returns a part of the description. If the part is a reference, returns the part that it
    refers to."""
    return RESOLVER.resolve(part["$ref"])[1] if "$ref" in part else part


def obeys(value, schema):
    jsonschema.Draft4Validator(
        schema, resolver=RESOLVER, format_checker=jsonschema.FormatChecker()
    ).validate(value)


def media_of(part):
    return part["content"]["application/json"]


def examples_of(response):
    return media_of(response)["examples"]


# (regular expression for a path, path item)
ITEMS = [
    (re.sub(r"\{(\w+)\}", r"(?P<\1>[^/]+)", path), item) for path, item in DOCUMENT["paths"].items()
]
# (name of the operation, status, response)
RESPONSES = [
    (item[method]["operationId"], int(status), found(response))
    for _, item in ITEMS
    for method in ("get", "put", "delete")
    if method in item
    for status, response in item[method]["responses"].items()
]
RESPONSES += [(path, 405, found(item["x-any-other-method"])) for path, item in ITEMS]
RESPONSES += [("other", 404, found(DOCUMENT["x-any-other-path"]))]


def response_to(row, status):
    """Returns the operation and the response that describe the reply to a row."""
    path, item = next((it for it in ITEMS if re.fullmatch(it[0], row.path)), ("", {}))
    method = row.method.lower()
    operation = (
        item[method]["operationId"] if method in item else "other" if status == 404 else path
    )
    return operation, next(
        response
        for name, its_status, response in RESPONSES
        if (name, its_status) == (operation, status)
    )


def example_of(row, reply):
    """Checks the reply's fields and body. Returns the operation, the status, and the name of the
    example that equals the reply, or None."""
    operation, response = response_to(row, reply.status)
    described = {
        "Content-Type": ["application/json"],
        "Content-Length": [str(len(reply.body))],
        "Connection": ["close"],
    }
    described |= {
        name: found(field["schema"])["enum"] for name, field in response.get("headers", {}).items()
    }
    assert set(reply.fields) == set(described)
    assert all(reply.fields[name] in values for name, values in described.items())
    obeys(reply.value, media_of(response)["schema"])
    name = next(
        (
            name
            for name, it in examples_of(response).items()
            if compact(it["value"]) == reply.body.encode()
        ),
        None,
    )
    if reply.status != 200 and reply.value.get("caveat", 1) == 1:
        assert name == f"fault-{reply.value['fault']}"
    return operation, reply.status, name


def test_description_obeys_the_schema_of_openapi():
    jsonschema.Draft4Validator(json.loads(SCHEMA.read_text(encoding="utf-8"))).validate(DOCUMENT)


def test_requests_obey_their_description():
    for row in (row for row in kinds.ROWS if row.raw is None and Reply(row.wanted).status == 200):
        path, item = next(it for it in ITEMS if re.fullmatch(it[0], row.path))
        parts = re.fullmatch(path, row.path).groupdict()
        for parameter in map(found, item.get("parameters", [])):
            part = parts[parameter["name"]]
            obeys(
                int(part) if parameter["schema"].get("type") == "integer" else part,
                parameter["schema"],
            )
        if row.body:
            obeys(json.loads(row.body), media_of(item["put"]["requestBody"])["schema"])


def test_examples_of_a_body_are_sent():
    for example in examples_of(
        next(item["put"]["requestBody"] for _, item in ITEMS if "put" in item)
    ).values():
        assert compact(example["value"]).decode() in {row.body for row in kinds.ROWS}


@pytest.mark.parametrize("scene", kinds.SCENES)
def test_replies_are_described(club, scene):
    rows = [it for it in kinds.SCENES[scene] if isinstance(it, kinds.Row)]
    for row, reply in zip(rows, club.play(kinds.SCENES[scene]), strict=True):
        if row.raw is None:
            example_of(row, reply)


def test_each_example_is_a_reply():
    given = {example_of(row, Reply(row.wanted)) for row in kinds.ROWS if row.raw is None}
    described = {
        (operation, status, name)
        for operation, status, response in RESPONSES
        for name in examples_of(response)
    }
    assert described == {it for it in given if it[2]}


def test_each_response_is_of_an_operation():
    assert all(
        it in [response for _, _, response in RESPONSES]
        for it in DOCUMENT["components"]["responses"].values()
    )


def test_faults_are_those_of_the_page_for_clients():
    faults = {
        it["value"]["fault"]: (status, it["value"]["text"])
        for _, status, response in RESPONSES
        for name, it in examples_of(response).items()
        if name.startswith("fault-")
    }
    lines = re.findall(
        r"^\| status (\d+), fault (\d+) `([^`]+)`",
        (DOCS / "CLIENT.md").read_text(encoding="utf-8"),
        re.MULTILINE,
    )
    assert {int(fault): (int(status), text) for status, fault, text in lines} == faults
    assert sorted(faults) == list(range(1, 23))
