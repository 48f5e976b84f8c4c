#!/usr/bin/env python3
"""Says which field of a partner's line is faulty, by docs/schema/lines.json.

    clients/check.py LINE..
    clients/check.py < lines

This is what `bad 101` to `bad 104` do not say. A LINE is a JSON object, or one behind `SESSION MINUTE ROLE`. The status
is 1 where one is faulty. Outside what is proved.
"""
import datetime
import io
import json
import re
import signal
import sys
from pathlib import Path
from typing import Any

from words import ROLES

FILE = Path(__file__).resolve().parents[1] / "docs" / "schema" / "lines.json"
Schema = dict[str, Any]
SCHEMA: Schema = json.loads(FILE.read_text(encoding="utf-8"))
HEAD = re.compile(r"(\S+) (\S+) (\S+) (.*)", re.DOTALL)
KINDS = {"integer": int, "string": str, "null": type(None)}
DATE = re.compile(r"(\d{4})-?(\d\d)-?(\d\d)[Tt ](\d\d):?(\d\d)?:?(\d\d)?")


def schema_at(schema: Schema) -> Schema:
    return SCHEMA["$defs"][schema["$ref"].rpartition("/")[2]] if "$ref" in schema else schema


def kinds_of(schema: Schema) -> list[str]:
    kinds = schema.get("type", "integer")
    return [kinds] if isinstance(kinds, str) else kinds


def is_kind(value: Any, kinds: list[str]) -> bool:
    """Whether a value is of one of these kinds; a whole number is one that 64 bits without a sign have."""
    if isinstance(value, bool):
        return False
    if isinstance(value, int):
        return "integer" in kinds and 0 <= value < 2**64
    return any(isinstance(value, KINDS[kind]) for kind in kinds)


def commands(name: str, milestone: Any) -> Schema:
    """The schema of a command; a report has three, by its milestone."""
    found: list[Schema] = [schema for schema in SCHEMA["oneOf"] if schema["properties"]["cmd"]["const"] == name]
    for schema in found:
        wanted = schema["properties"].get("milestone", {})
        if milestone in wanted.get("enum", [wanted.get("const", milestone)]):
            return schema
    return found[-1]


def day_fault(instant: str) -> str:
    """What is wrong with the day and the time of an instant, if something is."""
    found = DATE.match(instant)
    digits = found.groups() if found else ()
    year, month, day, hour, minute, second = (int(part or 0) for part in digits)
    try:
        datetime.datetime(year, month, day, hour, minute, min(second, 59))
    except ValueError as error:
        return f"is no day and time of the calendar: {error}"
    return "is no day and time of the calendar: second must be in 0..59" if second > 60 else ""


def text_fault(value: str, schema: Schema) -> str:
    """What is wrong with a text, if something is."""
    count = len(value.encode("utf-8", "surrogatepass"))
    if not schema.get("minLength", 0) <= count <= schema.get("maxLength", count):
        return f"has {count} bytes, and {schema['minLength']} to {schema['maxLength']} are allowed"
    pattern = schema.get("pattern", "")
    is_instant = "\\d{4}" in pattern
    if not re.search(pattern, value, re.ASCII):
        return "is no instant, as 2025-02-20T10:00:00Z" if is_instant else "has a byte that is not allowed"
    return day_fault(value) if is_instant else ""


def range_fault(value: Any, schema: Schema) -> str:
    """What is wrong with a value of the right kind, if something is."""
    if value is None:
        return ""
    if "enum" in schema and value not in schema["enum"]:
        return f"is none of {', '.join(map(str, schema['enum']))}"
    if isinstance(value, int) and not schema.get("minimum", value) <= value <= schema.get("maximum", value):
        return f"is not from {schema['minimum']} to {schema['maximum']}"
    return text_fault(value, schema) if isinstance(value, str) else ""


def field_fault(value: Schema, field: str, schema: Schema) -> tuple[int, str, str] | None:
    """The code, the field, and what is wrong with it; or nothing."""
    if field not in value:
        return 103, field, "is missing"
    kinds = kinds_of(schema)
    if not is_kind(value[field], kinds):
        return 103, field, f"is {json.dumps(value[field])}, and {' or '.join(kinds)} is wanted"
    wrong = range_fault(value[field], schema)
    return (104, field, wrong) if wrong else None


def fault(value: Any) -> tuple[int, str, str] | None:
    """The code, the field, and what is wrong with it; or nothing."""
    if not isinstance(value, dict):
        return 102, "", "the line is no object"
    names = [schema["properties"]["cmd"]["const"] for schema in SCHEMA["oneOf"]]
    if value.get("cmd") not in names:
        return 102, "cmd", f"is none of {', '.join(dict.fromkeys(names))}"
    schema = commands(value["cmd"], value.get("milestone"))
    for field, part in schema["properties"].items():
        if field == "cmd" or (field not in value and field not in schema["required"]):
            continue
        own = SCHEMA["$defs"]["milestone"] if field == "milestone" else schema_at(part)
        found = field_fault(value, field, own)
        if found:
            return found
    return None


def head_fault(line: str) -> tuple[str, str]:
    """What is wrong with the words before an object, if it has any, and the object."""
    if line.lstrip(" \t").startswith("{"):
        return "", line
    head = HEAD.fullmatch(line)
    if not head:
        return "100: a line is SESSION MINUTE ROLE JSON, with single spaces", ""
    session, minute, role, rest = head.groups()
    for name, word, most in (("SESSION", session, 64), ("MINUTE", minute, 2**32 - 1)):
        if not re.fullmatch(r"[1-9]\d*", word, re.ASCII) or int(word) > most:
            return f"100: {name} is {word}, and a number from 1 to {most} is wanted", ""
    return ("" if role in ROLES else f"100: ROLE is {role}, and none of {', '.join(ROLES)}"), rest


def said_of(line: str) -> str:
    """What is wrong with a line, or `fits`."""
    head, rest = head_fault(line)
    if head:
        return head
    try:
        found = fault(json.loads(rest))
    except (ValueError, RecursionError) as error:
        return f"101: {error}"
    return f"{found[0]}: {found[1] and repr(found[1]) + ' '}{found[2]}" if found else "fits"


def main() -> int:
    signal.signal(signal.SIGPIPE, signal.SIG_DFL)
    given = io.TextIOWrapper(sys.stdin.buffer, encoding="utf-8", errors="replace", newline="\n")
    said = [said_of(line) for line in sys.argv[1:] or (line.rstrip("\n") for line in given)]
    print(*said, sep="\n")
    return 0 if all(text == "fits" for text in said) else 1


if __name__ == "__main__":
    sys.exit(main())
