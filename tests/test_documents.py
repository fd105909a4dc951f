"""Tests of what tests the documents: commands that print something else, programs that aren't built, the last line."""

import re
from pathlib import Path

import pytest

import rules_table
from documents import made, main
from documents.pages import Page
from documents.shown import commands_shown_in
from documents.walking import run_shown_commands_and_yield_each_step

TOP = Path(__file__).resolve().parents[1]
PAGE = "# a\n\n```console\n$ echo a\na\n$ echo b\nc\n```\n\n```console slow\n$ echo d\n```\n"


def results_of_commands(text: str, why: str | None, monkeypatch: pytest.MonkeyPatch) -> list[main.Test]:
    """The results of the commands of a page, in an empty tree, where the programs aren't built for this reason."""

    def built_tree(files: list[Path], folder: Path) -> str | None:
        folder.mkdir()
        return why

    monkeypatch.setattr(main, "copy_tree_with_programs_or_say_unbuilt", built_tree)
    return list(main.test_commands([], Page(Path("/"), Path("a.md"), text)))


def test_a_command_that_prints_something_else_fails(monkeypatch: pytest.MonkeyPatch) -> None:
    good, bad = results_of_commands(PAGE, None, monkeypatch)
    assert good == ("a.md:4: echo a", None)
    assert bad == ("a.md:6: echo b", "it isn't shown that this is printed:\nb\n")


def test_commands_fail_where_a_program_is_not_built(monkeypatch: pytest.MonkeyPatch) -> None:
    assert results_of_commands(PAGE, "pdregress isn't built", monkeypatch) == [
        ("commands of a.md", "pdregress isn't built")
    ]


def test_what_watch_prints_of_a_build_is_left_to_who_walks_without_proofs(tmp_path: Path) -> None:
    page = "```console follow\n$ sh -c 'echo a; exec sleep 60'\na\n```\n\n```console follow\nb\n```\n"
    steps = list(commands_shown_in(page))
    assert list(run_shown_commands_and_yield_each_step(steps, tmp_path, 0.5, is_proved=True)) == []
    assert [
        it.printed_instead for it in run_shown_commands_and_yield_each_step(steps, tmp_path, 0.5, is_proved=False)
    ] == [None, ""]


def test_the_line_unproved_of_what_watch_prints_does_not_count(tmp_path: Path) -> None:
    page = "```console watch\n$ sh -c 'echo pdsuite: unproved: b; echo a'\na\n```\n"
    (step,) = run_shown_commands_and_yield_each_step(list(commands_shown_in(page)), tmp_path, 0.5, is_proved=False)
    assert step.printed_instead is None


def test_a_block_of_an_unknown_kind_fails(monkeypatch: pytest.MonkeyPatch) -> None:
    ((name, why),) = results_of_commands(PAGE.replace("slow", "fast"), None, monkeypatch)
    assert (name, why) == ("blocks of a.md", "a.md:11: a block of an unknown kind fast")


@pytest.mark.parametrize(
    ("tests", "last", "status"),
    [
        ([("a", None), ("b", None)], "2 passed, 0 failed", 0),
        ([("a", None), ("b", "why")], "1 passed, 1 failed", 1),
        ([("a", "")], "0 passed, 1 failed", 1),
    ],
)
def test_the_last_line_counts(
    tests: list[main.Test], last: str, status: int, monkeypatch: pytest.MonkeyPatch, capsys: pytest.CaptureFixture[str]
) -> None:
    monkeypatch.setattr(main, "tracked_files", lambda top: [])
    monkeypatch.setattr(main, "read_pages", lambda top, files: [])
    monkeypatch.setattr(main, "test_pages", lambda files, pages: iter(tests))
    assert main.main([]) == status
    assert capsys.readouterr().out.splitlines()[-1] == last


@pytest.mark.parametrize(("old", "new"), [("", "b\n"), ("a\n", "b\n"), ("a\n", "")])
def test_of_a_file_the_part_between_its_marks_alone_is_written(
    old: str, new: str, tmp_path: Path, monkeypatch: pytest.MonkeyPatch
) -> None:
    page = "a\n\n<!-- made -->\n{}<!-- end -->\nc\n"
    (tmp_path / "a.md").write_text(page.format(old))
    monkeypatch.setattr(made, "MADE", [made.Made("a.md", "<!-- made -->", "<!-- end -->", ("tool",))])
    monkeypatch.setattr(made, "run_tool", lambda page, made: new)
    made.write_made_parts(tmp_path, {})
    assert (tmp_path / "a.md").read_text() == page.format(new)


@pytest.mark.parametrize("folder", ["bench", "tools"])
def test_a_page_names_each_file_of_its_folder(folder: str) -> None:
    page = (TOP / folder / "README.md").read_text()
    named = set(re.findall(r"`([\w.]+)", page))
    assert [it.name for it in (TOP / folder).iterdir() if it.is_file() and it.name not in {"README.md", *named}] == []


def test_rules_that_the_page_of_the_sender_lacks_are_refused(
    tmp_path: Path, monkeypatch: pytest.MonkeyPatch, capsys: pytest.CaptureFixture[str]
) -> None:
    (tmp_path / "rules.toml").write_text('["One"]\n"own.a" = "a (own)"\n"rfc1.b" = "b (RFC 1)"\n')
    (tmp_path / "page.md").write_text("# p\n\n## The one\n`own.a`\n\n## Two\n`rfc1.b`\n")
    monkeypatch.setattr(rules_table, "RULES", tmp_path / "rules.toml")
    monkeypatch.setattr(rules_table, "PAGE", tmp_path / "page.md")
    assert rules_table.main() == 0
    assert "SENDER.md: [The one](SENDER.md#the-one), [Two](SENDER.md#two).\n" in capsys.readouterr().out
    (tmp_path / "page.md").write_text("# p\n\n## The one\n`own.a`\n")
    assert rules_table.main() == 1
    assert capsys.readouterr() == ("", "rules_table: docs/SENDER.md has no rfc1.b\n")
