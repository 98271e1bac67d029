"""JSON as the desk reads it: in the same way as Rust's serde_json (docs/PASSES.md)."""

import json
import re

DEEPEST = 127  # the deepest nesting of arrays and objects
NO_JSON = (ValueError, RecursionError)  # the exceptions that `json_value` may raise


def whole_number(text):
    """Reads a JSON number without fraction and exponent as Rust's serde_json does. Returns an int
    if the number is from 0 to 2^64 - 1, otherwise a float."""
    number = finite(text)
    return int(text) if not text.startswith("-") and int(text) < 2**64 else number


def finite(text):
    value = float(text)
    if value in (float("inf"), float("-inf")):
        raise ValueError(text)
    return value


def refused_constant(text):
    raise ValueError(text)


def depth(text):
    """Returns how deeply arrays and objects are nested in a JSON text."""
    deepest = level = 0
    for sign in re.sub(r'"(?:\\.|[^"\\])*"', "", text):
        level += (sign in "[{") - (sign in "]}")
        deepest = max(deepest, level)
    return deepest


def has_lone_surrogate(value):
    if isinstance(value, str):
        return any("\ud800" <= it <= "\udfff" for it in value)
    if isinstance(value, list):
        return any(map(has_lone_surrogate, value))
    return isinstance(value, dict) and any(
        has_lone_surrogate(it) for pair in value.items() for it in pair
    )


def json_value(data):
    """Reads bytes as JSON in the same way as serde_json. If an object has a name twice, the last
    value counts. Raises one of NO_JSON for bytes that aren't JSON."""
    seen = []

    def pairs(found):
        seen.extend(found)
        return dict(found)

    value = json.loads(
        data.decode(),
        object_pairs_hook=pairs,
        parse_int=whole_number,
        parse_float=finite,
        parse_constant=refused_constant,
    )
    # serde_json checks a value even if a later value with the same name replaces it
    everything = [value, *(it for pair in seen for it in pair)]
    if any(map(has_lone_surrogate, everything)) or depth(data.decode()) > DEEPEST:
        raise ValueError("no JSON of serde_json")
    return value
