"""Shell commands that say how a kernel is set up. They are read and never run; of all others the words are kept."""

import re
import shlex
from collections.abc import Iterator
from dataclasses import dataclass
from pathlib import PurePosixPath


@dataclass(frozen=True, slots=True)
class Switch:
    """A kernel's switch with its value: `sysctl NAME=VALUE`, `set_sysctls.py /proc/sys/..=VALUE`."""

    name: str
    value: str


@dataclass(frozen=True, slots=True)
class Metric:
    """A metric that a route sets for connections over it: `initcwnd 10`, `rto_min 300ms`."""

    name: str
    value: str


@dataclass(frozen=True, slots=True)
class Defaults:
    """A file of such lines, `defaults.sh`, by its path from the script's folder."""

    path: str


@dataclass(frozen=True, slots=True)
class Other:
    """Any other command, by its words, or as it is written where it has none."""

    words: tuple[str, ...]


SetupCommand = Switch | Metric | Defaults | Other

_FILE = "defaults.sh"
_PRODUCT = re.compile(r"\$\(\([ \t]*([0-9]{1,18}(?:[ \t]*\*[ \t]*[0-9]{1,18}){0,7})[ \t]*\)\)")
_GOES_ON = re.compile(r"\\\r?\n")
_SIGNS = ";&|<>"
# What is quoted, or else a descriptor: a word 1 or 2 directly before `>`.
_QUOTED_OR_DESCRIPTOR = re.compile(r"""('[^']*'|"(?:[^"\\]|\\.)*"|\\.)|(?<![^\s;])[12](?=>)""")
# The words that end a command. The next one is read as well, whatever would come of the first.
_ENDS = (";", "&&")
_UNREAD = re.compile(r"[$`(){}*?~\[\]\\]")
_ASSIGNED = re.compile(r"([A-Za-z0-9_./-]+)=(.*)", re.DOTALL)
_PROC = "/proc/sys/"

_SYSCTL = ("sysctl", "/sbin/sysctl", "/usr/sbin/sysctl")
_SYSCTL_FLAGS = ("-q", "-w", "-e", "--quiet", "--write", "--ignore")
_IP = ("ip", "/sbin/ip", "/usr/sbin/ip")
_ROUTE_VERBS = ("add", "change", "replace")
# Words of a route that say where it leads, and nothing of connections; all but the last have a value.
_WHERE = ("via", "dev", "proto", "scope", "src", "metric", "table")
_METRICS = ("initcwnd", "rto_min")


def setup_commands_in(text: str) -> Iterator[SetupCommand]:
    """The commands of a text for the shell, one after another."""
    for line in _GOES_ON.sub(" ", text).split("\n"):
        for words in _split_line_into_commands_or_keep_whole(line):
            yield from _parse_command(words)


def _multiply_factors(factors: str) -> int:
    result = 1
    for factor in factors.split("*"):
        result *= int(factor)
    return result


def _split_line_into_commands_or_keep_whole(line: str) -> Iterator[tuple[str, ...]]:
    """The words of each command of a line, without what sends output to nowhere."""
    # Within such quotes the shell takes a `$` for no more than itself.
    if "'" in line and "$" in line:
        yield (line.strip(),)
        return
    products = _PRODUCT.sub(lambda found: str(_multiply_factors(found[1])), line)
    without_descriptors = _QUOTED_OR_DESCRIPTOR.sub(lambda found: found[1] or "", products)
    lexer = shlex.shlex(without_descriptors, posix=True, punctuation_chars=_SIGNS)
    lexer.whitespace_split = True
    try:
        words = _without_redirections_to_dev_null(list(lexer))
    except ValueError:
        yield (line.strip(),)
        return
    if any(set(it) <= set(_SIGNS) and it not in _ENDS for it in words):
        yield (line.strip(),)
        return
    command: list[str] = []
    for word in [*words, ";"]:
        if word not in _ENDS:
            command.append(word)
        elif command:
            yield tuple(command)
            command = []


def _without_redirections_to_dev_null(words: list[str]) -> list[str]:
    """The words without `> /dev/null` and `>&1`, which change nothing of what a command does."""
    kept: list[str] = []
    rest = iter(words)
    for word in rest:
        if word not in (">", ">&", "&>", ">>"):
            kept.append(word)
            continue
        if next(rest, "") not in ("/dev/null", "1", "2"):
            return words
    return kept


def _parse_command(words: tuple[str, ...]) -> Iterator[SetupCommand]:
    """The switches, metrics or `defaults.sh` of a command that has any and can be read whole; else an `Other`."""
    name, *rest = words
    commands: list[SetupCommand] | None = None
    if not any(map(_UNREAD.search, words)):
        if name in _SYSCTL:
            commands = _parse_switches_if_all_words_assign([it for it in rest if it not in _SYSCTL_FLAGS])
        elif PurePosixPath(name).name == "set_sysctls.py":
            commands = _parse_switches_if_all_words_assign(rest) if all(it.startswith(_PROC) for it in rest) else None
        elif name in _IP and rest[:1] in (["route"], ["ro"], ["r"]):
            commands = _parse_route_metrics_if_all_words_known(rest[1:])
        elif PurePosixPath(name).name == _FILE and not rest and not name.startswith("/"):
            commands = [Defaults(name)]
    yield from commands or [Other(words)]


def _parse_switches_if_all_words_assign(words: list[str]) -> list[SetupCommand] | None:
    found = [_ASSIGNED.fullmatch(it) for it in words]
    return [Switch(_dotted_switch_name(it[1]), " ".join(it[2].split())) for it in found if it] if all(found) else None


def _dotted_switch_name(name: str) -> str:
    """The name of a switch with points, from a path of /proc/sys or one with slashes, where a point is a slash."""
    if name.startswith(_PROC):
        return name.removeprefix(_PROC).replace("/", ".")
    slash, point = name.find("/"), name.find(".")
    if slash >= 0 and (point < 0 or slash < point):
        return name.translate(str.maketrans("/.", "./"))
    return name


def _parse_route_metrics_if_all_words_known(words: list[str]) -> list[SetupCommand] | None:
    """The metrics of a route, where it has one that is read and none that isn't."""
    if not words or words[0] not in _ROUTE_VERBS:
        return None
    metrics: list[SetupCommand] = []
    rest = iter(words[2:])
    for word in rest:
        value = next(rest, None)
        if value is None or word not in (*_WHERE, *_METRICS):
            return None
        if word in _METRICS:
            metrics.append(Metric(word, value))
    return metrics
