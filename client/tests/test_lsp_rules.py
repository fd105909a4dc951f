"""The rules of the sender in the hovers of the language server, and how often a program is asked for them."""

from pathlib import Path

import pytest

from pdsuite.lsp import queries
from pdsuite.lsp.hover import rules_of_line_as_list
from pdsuite.programs.lookup import stamped_program
from pdsuite.programs.program import ProgramEndedError
from pdsuite.signals import Stop
from pdsuite.watch.sender import LiveSender
from tests.lsp_client import LspClient
from tests.lsp_scripts import PASSES

NEW_DATA = "rfc9293.new-data"
NEW_DATA_ITEM = f"- `{NEW_DATA}`: new data (RFC 9293, section 3.8.6.2.1)"
# A program that writes down each call for rules, and refuses it while the file `old` is beside it.
PROGRAM = """#!/bin/sh
case "$*" in *--rules*)
    echo >> "$0.calls"
    [ ! -e "${0%/*}/old" ] || { echo "error: unexpected argument '--rules' found" >&2 && exit 2; } ;;
esac
exec "$0.built" "$@"
"""


def test_the_rules_of_a_line_are_listed_each_with_its_words_if_it_has_any() -> None:
    rules = {8: (NEW_DATA, "own.new-rule"), 9: ("rfc9293.ack",)}
    assert rules_of_line_as_list(7, rules) == ""
    assert rules_of_line_as_list(8, rules) == f"Rules of the sender at line 8:\n{NEW_DATA_ITEM}\n- `own.new-rule`"


class ListingProgram:
    """Lists a rule for each text but `ends`, at which it ends; the class counts how many were started."""

    count = 0

    def __init__(self, *words: object) -> None:
        ListingProgram.count += 1

    def __enter__(self) -> "ListingProgram":
        return self

    def __exit__(self, *why: object) -> None:
        ...

    def send_last_commands_and_read_errors(self, commands: bytes, longest: int) -> bytes:
        if b"ends" in commands:
            raise ProgramEndedError("pdregress was ended by SIGSEGV")
        return b"job 1 s0 line 1 rules rfc9293.ack\n"


def test_a_program_is_started_once_for_each_text_and_settings_and_may_end(monkeypatch: pytest.MonkeyPatch) -> None:
    monkeypatch.setattr(queries, "Program", ListingProgram)
    monkeypatch.setattr(ListingProgram, "count", 0)
    sender = LiveSender(stamped_program(Path(__file__)), None)
    with Stop() as stop:
        asked = queries.ProgramQueries(sender, stop, lambda line: None)
        found = [asked.script_rules_maybe_empty(text, ()) for text in ("a", "ends", "\n" * 5_000) * 2]
        assert found == [{1: ("rfc9293.ack",)}, {}, {}] * 2 and ListingProgram.count == 2
        asked.script_rules_maybe_empty("a", (("mss", "100"),))
        assert ListingProgram.count == 3
        for number in range(9):
            asked.script_rules_maybe_empty(f"b{number}", ())
        asked.script_rules_maybe_empty("b1", ())
        assert ListingProgram.count == 12
        asked.script_rules_maybe_empty("a", ())
        assert ListingProgram.count == 13


def test_rules_follow_what_a_hover_says_without_them(recording_programs: Path, workspace: Path, tmp_path: Path) -> None:
    folder = tmp_path / "programs"
    folder.mkdir()
    (folder / "pdrecord").symlink_to((recording_programs / "pdrecord").resolve())
    (folder / "pdregress.built").symlink_to((recording_programs / "pdregress").resolve())
    (folder / "pdregress").write_text(PROGRAM)
    (folder / "pdregress").chmod(0o755)
    (folder / "old").touch()
    calls = folder / "pdregress.calls"
    with LspClient(folder, workspace) as client:

        def hovers(text: str) -> list[str]:
            client.put(uri, text)
            client.settled(uri)
            places = [client.at(uri, line, 0) for line in range(PASSES.count("\n"))]
            return [client.request("textDocument/hover", it)["contents"]["value"] for it in places]

        uri = client.open(workspace / "a.pkt", "")
        client.settled(uri)
        without = hovers(PASSES)
        assert calls.read_text() == "\n"
        (folder / "old").unlink()
        rules = [after.removeprefix(before) for before, after in zip(without, hovers(PASSES + "// more\n"))]
        assert calls.read_text() == "\n" * 2
        assert [it.count("\n- `") for it in rules] == [1, 1, 2, 6, 1, 11, 2, 5, 1]
        assert rules[8] == f"\n\nRules of the sender at line 9:\n{NEW_DATA_ITEM}"
        assert [it for it in rules if it and not it.startswith("\n\nRules of the sender at line ")] == []
        # The text breaks off, and what stands before that is run.
        assert hovers(PASSES + "bad") == [before + it for before, it in zip(without, rules)]
