"""Writes docs/schema/desk.json, the OpenAPI 3 of the desk's HTTP for partners, from docs/schema/lines.json and this.

    desk/desk openapi > docs/schema/desk.json

A test holds the file against this, and against what the running program answers.
"""
import json
from typing import Any

from . import TOP

Json = dict[str, Any]
LINES = TOP / "docs" / "schema" / "lines.json"
GREATEST = 2**64 - 1


def reference(name: str) -> Json:
    return {"$ref": f"#/components/schemas/{name}"}


def listed(schema: Json) -> Json:
    return {"type": "array", "items": schema}


def record() -> Json:
    """A record of a flight, as the feed has it."""
    texts = "callsign scheduled_type plan_type scheduled_reg plan_reg scheduled_dest plan_dest".split()
    times = "sobt eobt ctot otot eldt aldt aibt acgt tobt tsat asbt ardt asrt asat aobt atot".split()
    deicing = "eczt eezt aczt aezt".split()
    numbers = {"mttt": 1440, "exit": 255, "exot": 1440, "stand": 65535}
    properties: Json = {"flight": {"type": "integer", "minimum": 1, "maximum": GREATEST}}
    properties |= {name: {"type": "string", "maxLength": 8} for name in texts}
    properties |= {name: reference("Time") for name in [*times, *deicing]}
    properties |= {name: {"type": "integer", "minimum": 0, "maximum": most} for name, most in numbers.items()}
    properties["reached"] = listed({"type": "integer", "minimum": 0, "maximum": 16})
    properties["alerts"] = listed(reference("Alert"))
    required = [name for name in properties if name not in deicing]
    return {"type": "object", "properties": properties, "required": required, "additionalProperties": False}


def outcome() -> Json:
    """What came of a line: "ok", or a refusal; of the desk's own, which did not send it, the number is null."""
    code, word = {"type": ["integer", "null"]}, {"type": "string"}
    return {"oneOf": [{"const": "ok"}, closed({"code": code, "name": word, "words": word}, slot={"type": "integer"})]}


def reply() -> Json:
    """The reply to a line."""
    entry = {"type": ["integer", "null"], "description": "The entry's number; null where the line made none."}
    alerts = listed(closed({"flight": {"type": "integer"}, "alerts": listed(reference("Alert"))}))
    more = {"record": reference("Record"), "alerts": alerts, "unloaded": listed({"type": "object"})}
    return closed({"entry": entry, "outcome": outcome()}, **more)


def event() -> Json:
    """An entry of a flight's history."""
    word = {"type": "string"}
    return closed(
        {
            "entry": {"type": "integer"},
            "minute": reference("Instant"),
            "role": word,
            "who": word,
            "what": word,
            "changes": listed(word),
            "refused": {"type": ["string", "null"]},
            "code": {"type": ["integer", "null"]},
        }
    )


def closed(required: Json, **more: Json) -> Json:
    """An object that has these members, may have more of them, and no other."""
    properties = {**required, **more}
    return {"type": "object", "properties": properties, "required": list(required), "additionalProperties": False}


def schemas() -> Json:
    """What requests and answers are made of."""
    lines = json.loads(LINES.read_text(encoding="utf-8"))
    return {
        **{f"Line_{name}": moved(value) for name, value in lines["$defs"].items()},
        "Line": moved({"description": lines["description"], "type": "object", "oneOf": lines["oneOf"]}),
        "Instant": {"type": "string", "pattern": r"^\d{4,5}-\d\d-\d\dT\d\d:\d\d:00Z$"},
        "Time": {"oneOf": [reference("Instant"), {"type": "null"}]},
        "Alert": {"type": "string", "pattern": r"^(CDM\d\da?|LOC\d\d)$"},
        "Record": record(),
        "Reply": reply(),
        "Event": event(),
        "Words": {"type": "object", "properties": {"words": {"type": "string"}}, "required": ["words"]},
    }


def moved(value: Any) -> Any:
    """A schema whose parts stand among the components."""
    if isinstance(value, dict):
        return {
            key: each.replace("#/$defs/", "#/components/schemas/Line_") if key == "$ref" else moved(each)
            for key, each in value.items()
        }
    return [moved(each) for each in value] if isinstance(value, list) else value


def told(about: str, schema: Json, kind: str = "application/json") -> Json:
    return {"description": about, "content": {kind: {"schema": schema}}}


def of_board(name: str, schema: Json) -> Json:
    """An answer that says as of which entry it is."""
    return closed({"next": {"type": "integer"}, "is_live": {"type": "boolean"}, name: schema})


def failures(*statuses: int) -> Json:
    about = {
        400: "something is wrong with the request, and nothing was sent",
        401: "no certificate and no token of a partner",
        403: "not a flight of this partner, or no lines by HTTP, or a page of another site asks",
        404: "no such flight in sight",
        408: "the request did not come to its end in time",
        409: "a request with this key is under way",
        413: "the request is too long",
        415: "what is sent has another type",
        421: "another host was asked for",
        422: "the key was used with another request",
        429: "too many requests: wait a moment",
    }
    return {str(status): told(about[status], reference("Words")) for status in statuses}


def get(about: str, answer: Json, *statuses: int, parameters: list[Json] | None = None) -> Json:
    return {
        "get": {
            "summary": about,
            **({"parameters": parameters} if parameters else {}),
            "responses": {"200": answer, **failures(401, 403, 421, 429, *statuses)},
        }
    }


FLIGHT = {
    "name": "flight",
    "in": "path",
    "required": True,
    "description": "The number of a flight, in digits.",
    "schema": {"type": "string", "pattern": "^[1-9][0-9]{0,19}$"},
}


def header(name: str, about: str, **schema: Any) -> Json:
    return {"name": name, "in": "header", "description": about, "schema": {"type": "string", **schema}}


def post_lines() -> Json:
    """Sending lines."""
    lines = {"oneOf": [reference("Line"), {**listed(reference("Line")), "minItems": 1, "maxItems": 100}]}
    replies = [reference("Reply"), closed({"replies": listed(reference("Reply"))})]
    one = {"oneOf": [*replies, reference("Words")]}
    about = "1 to 200 printable characters. A repeated request is answered by the first reply, for 7 days by default."
    return {
        "summary": "Sends lines in order; the board answers each, and after one without an answer none is sent.",
        "parameters": [header("Idempotency-Key", about, pattern="^[!-~]{1,200}$")],
        "requestBody": {
            "required": True,
            "content": {
                "application/json": {"schema": lines},
                "application/x-ndjson": {"schema": {"type": "string", "description": "a line of JSON each"}},
            },
        },
        "responses": {
            "200": told("the reply to each line", {"oneOf": replies}),
            **failures(400, 401, 408, 409, 413, 415, 421, 422),
            "403": told("no line was sent: not a flight of this partner", one),
            "429": told("no line was sent: too many", one),
            "503": told("the board is away, nothing was sent", one),
            "504": told("the board went away before it replied: ask again with the same key", one),
        },
    }


def paths() -> Json:
    """What may be asked for."""
    flights, flight = of_board("flights", listed(reference("Record"))), of_board("flight", reference("Record"))
    alert = closed({"name": reference("Alert"), "words": {"type": "string"}})
    alerted = closed({"flight": {"type": "integer"}, "callsign": {"type": "string"}, "alerts": listed(alert)})
    history, alerts = of_board("events", listed(reference("Event"))), of_board("flights", listed(alerted))
    events = told("the board, then an event for each entry in sight", {"type": "string"}, "text/event-stream")
    last = header("Last-Event-ID", "The id of the last event that came; without it the board comes first.")
    of_one: Json = {"parameters": [FLIGHT]}
    return {
        "/v1/lines": {"post": post_lines()},
        "/v1/flights": get("All flights in sight.", told("flights", flights)),
        "/v1/flights/{flight}": get("A flight.", told("its record", flight), 400, 404, **of_one),
        "/v1/flights/{flight}/history": get(
            "What became of a flight.", told("its last entries", history), 400, 404, **of_one
        ),
        "/v1/alerts": get("The flights with alerts.", told("flights", alerts)),
        "/v1/events": get("Entries as they come (Server-Sent Events).", events, parameters=[last]),
    }


def document() -> Json:
    """The whole document."""
    return {
        "openapi": "3.1.0",
        "info": {
            "title": "The desk, for partners by HTTP",
            "version": "1",
            "description": "Lines, flights, history, alerts and events, of the flights of a partner alone.",
        },
        "security": [{"token": []}, {"certificate": []}],
        "paths": paths(),
        "components": {
            "schemas": schemas(),
            "securitySchemes": {
                "token": {"type": "http", "scheme": "bearer"},
                "certificate": {"type": "mutualTLS"},
            },
        },
    }


def text() -> str:
    """The document as it stands in the file."""
    return json.dumps(document(), indent=1, ensure_ascii=False) + "\n"
