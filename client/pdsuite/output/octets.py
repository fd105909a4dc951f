"""How octets are shown: one function for terminals and for every file that is written."""

import os
import re
from collections.abc import Callable
from itertools import accumulate
from pathlib import Path

_PLAIN = re.compile(rb"[ -\[\]-~]*")
_CUT = "..."


def printable_octets(octets: bytes, most: int | None = None, also: str = "") -> str:
    r"""The octets as text that is safe to print.

    Octets that aren't UTF-8 and characters that don't print, control characters among
    them, stand as `\xHH`, a backslash as `\\`. So do the characters of `also`. A text
    of more than `most` octets is cut, and ends in `...` within them.
    """
    if _PLAIN.fullmatch(octets) and not also:
        signs = list(octets.decode("ascii")) if most is not None else None
        text = octets.decode("ascii")
    else:
        signs = [_hex_or_backslash_escape_if_needed(it, also) for it in octets.decode("utf-8", "surrogateescape")]
        text = "".join(signs)
    if signs is None or most is None or len(text.encode()) <= most:
        return text
    return _longest_fitting_sign_prefix(signs, most - len(_CUT)) + _CUT


def printable_text(text: str, most: int | None = None) -> str:
    """A text as people see it. Octets that aren't UTF-8 stand in it as Python's `surrogateescape` has them."""
    return printable_octets(text.encode("utf-8", "surrogateescape"), most)


def printable_path(path: str | Path, also: str = "") -> str:
    """A path as people see it."""
    text = path if isinstance(path, str) else os.fspath(path)
    if not also and text.isascii() and text.isprintable() and "\\" not in text:
        return text
    return printable_octets(os.fsencode(text), also=also)


def make_absolute_printable_path_function() -> Callable[[str], str]:
    """A function that makes a path absolute, as people see it, for as long as the working folder stays the same."""
    here = os.getcwd().rstrip("/")

    def absolute_printable_path(path: str) -> str:
        whole = path if path[:1] == "/" else f"{here}/{path}"
        return printable_path(os.path.normpath(whole) if "/." in whole else whole)

    return absolute_printable_path


def _hex_or_backslash_escape_if_needed(character: str, also: str) -> str:
    if character == "\\" and character not in also:
        return "\\\\"
    if character.isprintable() and character not in also:
        return character
    octets = character.encode("utf-8", "surrogateescape")
    return "".join(f"\\x{octet:02x}" for octet in octets)


def _longest_fitting_sign_prefix(signs: list[str], most: int) -> str:
    """As many of the first signs as fit into so many octets; a sign is never halved."""
    sizes = accumulate(len(sign.encode()) for sign in signs)
    return "".join(sign for sign, size in zip(signs, sizes) if size <= most)
