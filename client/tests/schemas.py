"""Holds what pdsuite prints and writes as JSON against the schemas that docs/ has."""

import json
from collections.abc import Sequence
from functools import cache
from pathlib import Path
from typing import Any

from jsonschema import Draft202012Validator

from tests.helpers import TOP

_DOCS = TOP / "docs"
_JSON = "--json"


@cache
def schema_of(command: str) -> Any:
    """The schema of what a command prints."""
    return json.loads((_DOCS / f"{command}.schema.json").read_text())


@cache
def validator(command: str) -> Draft202012Validator:
    """A validator of objects by the schema of a command."""
    Draft202012Validator.check_schema(schema_of(command))
    return Draft202012Validator(schema_of(command))


def held(command: str, text: str) -> Any:
    """The object of a text that a command prints or writes, which has to have its schema."""
    found = json.loads(text)
    validator(command).validate(found)
    return found


def hold_output(words: Sequence[str | bytes | Path], out: str) -> None:
    """Holds what a call printed against the schema, where it was to print JSON."""
    if _JSON in words and out.startswith("{"):
        held(str(words[0]), out)
