"""Which calls this profile runs, by docs/SENDER.md, which others stand for them, and what the rest are about."""

import re
from dataclasses import dataclass, replace

from pdsuite.packetdrill.items import Call
from pdsuite.packetdrill.tokens import tokens_of

_WHOLE = re.compile(r"[0-9]+")
_SWITCH = re.compile(r"\[ ?0*[01] ?\]")
_NO_FLAGS = re.compile(r"0+")
# A message of one buffer, without blanks.
_ONE_BUFFER = re.compile(r"\{msg_name\(\.\.\.\)=\.\.\.,msg_iov\(1\)=\[\{(\.\.\.),([0-9]+)\}\](?:,msg_flags=0+)?\}")
_OPENING = frozenset("([{")
_CLOSING = frozenset(")]}")
_NONBLOCKING = "SOCK_NONBLOCK"
_STREAM = "SOCK_STREAM"

# Words in arguments of calls that aren't run, and what they are about.
_ABOUT = (
    (re.compile(r"\b(?:MSG|TCP)_FASTOPEN"), "Fast Open"),
    (re.compile(r"\bTCP_MD5SIG"), "MD5"),
)


@dataclass(frozen=True, slots=True)
class Spelling:
    """A call of this profile that stands for another one, and what that changes, in words that are counted."""

    call: Call
    words: str


def profile_spelling_if_call_needs_one(call: Call) -> Spelling | None:
    """The call of this profile that stands for one which it hasn't, if one does."""
    match call.name, call.arguments:
        case "socket", (domain, kind, protocol):
            words = [it.strip() for it in kind.split("|")]
            if sorted(words) == [_NONBLOCKING, _STREAM]:
                arguments = (domain, _STREAM, protocol)
                return Spelling(replace(call, arguments=arguments), f"{_NONBLOCKING} is dropped: no call blocks here")
        case "send", (descriptor, buffer, count, flags):
            return _spell_as_write_if_no_flags(call, descriptor, buffer, count, flags)
        case "sendto", (descriptor, buffer, count, flags, "..." | "NULL", "..." | "0"):
            return _spell_as_write_if_no_flags(call, descriptor, buffer, count, flags)
        case "sendmsg", (descriptor, message, flags):
            if found := _ONE_BUFFER.fullmatch(re.sub(r"\s", "", message)):
                return _spell_as_write_if_no_flags(call, descriptor, found[1], found[2], flags)
    return None


def _spell_as_write_if_no_flags(call: Call, descriptor: str, buffer: str, count: str, flags: str) -> Spelling | None:
    """A call that sends one buffer, as `write` where it has no flags."""
    if not _NO_FLAGS.fullmatch(flags):
        return None
    arguments = (descriptor, buffer, count)
    return Spelling(replace(call, name="write", arguments=arguments), f"{call.name} without flags is written as write")


def rewrite_call_text(text: str, call: Call) -> str:
    """The text of a call with the name and the arguments of another one; its result stays as it is written."""
    depth = 0
    for token in tokens_of(text):
        depth += (token.text in _OPENING) - (token.text in _CLOSING)
        if depth == 0 and token.text in _CLOSING:
            return f"{call.name}({', '.join(call.arguments)}){text[token.end:]}"
    return text


def is_run_by_profile(call: Call) -> bool:
    """Whether a call is one of the table's, in name and shape."""
    match call.name, call.arguments:
        case "socket", (_, "SOCK_STREAM", protocol):
            return protocol in ("IPPROTO_TCP", "0")
        case ("bind" | "accept"), (_, _, _):
            return _has_descriptor(call)
        case "listen", (_, _):
            return _has_descriptor(call)
        case "close", (_,):
            return _has_descriptor(call)
        case "write", (_, _, count):
            return _has_descriptor(call) and _WHOLE.fullmatch(count) is not None
        case "fcntl", (_, "F_SETFL", _):
            return _has_descriptor(call)
        case "setsockopt", (_, "SOL_SOCKET", "SO_REUSEADDR", _, _):
            return _has_descriptor(call)
        case "setsockopt", (_, ("SOL_TCP" | "IPPROTO_TCP"), "TCP_NODELAY", value, _):
            return _has_descriptor(call) and _SWITCH.fullmatch(value) is not None
    return False


def sets_send_buffer(call: Call) -> bool:
    """Whether a call sets the size of the send buffer."""
    return call.name == "setsockopt" and call.arguments[1:3] == ("SOL_SOCKET", "SO_SNDBUF") and call.result == 0


def octets_to_write_or_zero(call: Call) -> int:
    """How many octets a call is to write."""
    if call.name != "write" or len(call.arguments) != 3 or not _WHOLE.fullmatch(call.arguments[2]):
        return 0
    digits = call.arguments[2].lstrip("0")
    return int(digits or "0") if len(digits) <= 18 else 10**18


def subject_of_call(call: Call) -> str:
    """The subject of a call that isn't run, in words that are counted."""
    for word, words in _ABOUT:
        if any(map(word.search, call.arguments)):
            return words
    match call.name, call.arguments:
        case "connect", _:
            return "connect"
        case ("send", (_, _, _, flags)) | ("sendto", (_, _, _, flags, *_)) | ("sendmsg", (_, _, flags)) if (
            not _NO_FLAGS.fullmatch(flags)
        ):
            return f"{call.name} with {flags}"
        case ("setsockopt" | "getsockopt"), (_, _, name, *_):
            return f"{call.name} {name}"
        case "fcntl", (_, name, *_):
            return f"{call.name} {name}"
    return f"the call {call.name}"


def _has_descriptor(call: Call) -> bool:
    return _WHOLE.fullmatch(call.arguments[0]) is not None
