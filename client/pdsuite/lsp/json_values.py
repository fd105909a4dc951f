"""The values of messages, and what is read of them; whatever has another shape is `MalformedMessageError`."""

from collections.abc import Mapping
from typing import Any

Json = dict[str, Any]
_MOST = 2**31 - 1


class MalformedMessageError(Exception):
    """That a message lacks something, or has another value there."""


def require_member(value: object, name: str) -> Any:
    """The value under a name that an object has to have."""
    if not isinstance(value, Mapping) or name not in value:
        raise MalformedMessageError(f"no {name}")
    return value[name]


def nested_member_or_none(value: object, *names: str) -> Any:
    """The value under a name of an object, and of that under the next one; None where a name is missing."""
    for name in names:
        if not isinstance(value, Mapping):
            return None
        value = value.get(name)
    return value


def require_text_member(value: object, name: str) -> str:
    """A text under a name."""
    found = require_member(value, name)
    if not isinstance(found, str):
        raise MalformedMessageError(f"{name} is no text")
    return found


def require_list_member(value: object, name: str) -> list[Any]:
    """A list under a name."""
    found = require_member(value, name)
    if not isinstance(found, list):
        raise MalformedMessageError(f"{name} is no list")
    return found


def require_nonnegative_integer_member(value: object, name: str) -> int:
    """A whole number under a name, which isn't negative."""
    found = require_member(value, name)
    if not isinstance(found, int) or isinstance(found, bool) or not 0 <= found <= _MOST:
        raise MalformedMessageError(f"{name} is no number of this kind")
    return found
