#!/usr/bin/env python3
"""The JSON Schema of all answers, from the tables docs/json-fields.txt, and a validator for its keywords.

python3 distac_view/tests/json_schema.py --write     rewrites docs/distac-view.schema.json

The schema accepts further fields and ids, because later programs may add them. The tests accept none that isn't
described.
"""

from __future__ import annotations

import json
import re
import sys
from pathlib import Path
from typing import Any, Dict, Iterator

DOCS = Path(__file__).resolve().parents[2] / "docs"
FIELDS, SCHEMA = DOCS / "json-fields.txt", DOCS / "distac-view.schema.json"
FIELD = re.compile(r"^\|(?P<objects>[\w, -]*)\| `(?P<field>\w+)` \| (?P<value>[^|]+?) \| (?P<meaning>[^|]+?) \|$", re.MULTILINE)
NOTE_ID = re.compile(r"^\| `(?P<id>[A-Z]\w+)` \| ", re.MULTILINE)
KINDS = {"name": "string", "text": "string", "number": "integer", "null": "null"}
TYPES = {"string": str, "integer": int, "boolean": bool, "array": list, "object": dict, "null": type(None)}

Rule = Dict[str, Any]


def described() -> Rule:
    """The schema of the documented tables: each object has fields, and each field a value of a kind.

    A row can name several objects; one that names none belongs to those above it.
    """
    text = FIELDS.read_text(encoding="utf-8")
    objects: list[str] = []
    fields: "dict[str, dict[str, tuple[str, str]]]" = {}
    for found in FIELD.finditer(text):
        objects = re.findall(r"[\w-]+", found["objects"]) or objects
        for one in objects:
            fields.setdefault(one, {})[found["field"]] = (found["value"], found["meaning"])
    definitions = {name: object_rule(own, set(fields)) for name, own in fields.items()}
    definitions["note"]["properties"]["id"]["examples"] = [found["id"] for found in NOTE_ID.finditer(text)]
    questions = [{"$ref": f"#/$defs/{name}"} for name, own in fields.items() if "question" in own]
    head = {"$schema": "https://json-schema.org/draft/2020-12/schema", "title": "An answer of distac-view as JSON, version 1"}
    return {**head, "anyOf": questions, "$defs": definitions}


def object_rule(fields: "dict[str, tuple[str, str]]", objects: "set[str]") -> Rule:
    properties = {name: {**rule_of(value, objects), "description": meaning} for name, (value, meaning) in fields.items()}
    return {"type": "object", "properties": properties, "required": list(fields)}


def rule_of(kind: str, objects: "set[str]") -> Rule:
    """The schema of a value of a kind: a list, an object, or one of some choices, separated by commas and by `or`."""
    if kind.startswith("list of "):
        return {"type": "array", "items": rule_of(kind[len("list of ") :], objects)}
    if kind in objects:
        return {"$ref": f"#/$defs/{kind}"}
    choices = re.split(r", | or ", kind)
    rules: list[Rule] = [{"type": KINDS[choice]} for choice in choices if choice in KINDS]
    constants = [json.loads(choice) for choice in choices if choice not in KINDS]
    rules += [{"const": constants[0]} if len(constants) == 1 else {"enum": constants}] if constants else []
    return rules[0] if len(rules) == 1 else {"anyOf": rules}


class Schema:
    def __init__(self, schema: Rule) -> None:
        self.schema = schema

    def faults_of(self, answer: str) -> list[str]:
        """The faults of a whole answer, as sentences."""
        value = json.loads(answer)
        question = value.get("question") if isinstance(value, dict) else None
        if {"$ref": f"#/$defs/{question}"} not in self.schema["anyOf"]:
            return [f"the question {question!r} isn't described"]
        return list(self.faults_in(value, self.schema["$defs"][question], str(question)))

    def faults_in(self, value: Any, rule: Rule, place: str) -> Iterator[str]:
        if "$ref" in rule:
            yield from self.faults_in(value, self.schema["$defs"][rule["$ref"].split("/")[-1]], place)
        if "anyOf" in rule and all(list(self.faults_in(value, choice, place)) for choice in rule["anyOf"]):
            yield f"{place}: {value!r} fits none of {rule['anyOf']}"
        if "type" in rule and type(value) is not TYPES[rule["type"]]:
            yield f"{place}: {value!r} is no {rule['type']}"
            return
        for constants in ([rule["const"]] if "const" in rule else rule.get("enum"),):
            if constants is not None and not any(type(value) is type(each) and value == each for each in constants):
                yield f"{place}: {value!r} is none of {constants}"
        if "examples" in rule and value not in rule["examples"]:
            yield f"{place}: {value!r} isn't described"
        for number, item in enumerate(value if "items" in rule else ()):
            yield from self.faults_in(item, rule["items"], f"{place}[{number}]")
        if "properties" in rule:
            yield from self.faults_in_fields(value, rule, place)

    def faults_in_fields(self, value: Rule, rule: Rule, place: str) -> Iterator[str]:
        """The faults of an object, whose fields must be exactly the described ones."""
        if set(value) != set(rule["required"]):
            yield f"{place}: {value!r} hasn't the fields {sorted(rule['required'])}"
            return
        for name, own in rule["properties"].items():
            yield from self.faults_in(value[name], own, f"{place}.{name}")


def documented() -> Schema:
    """The stored schema."""
    return Schema(json.loads(SCHEMA.read_text(encoding="utf-8")))


def text_of(schema: Rule) -> str:
    return json.dumps(schema, indent=2) + "\n"


if __name__ == "__main__":
    if sys.argv[1:] != ["--write"]:
        sys.exit("usage: json_schema.py --write")
    SCHEMA.write_text(text_of(described()), encoding="utf-8")
