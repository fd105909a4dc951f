"""The page of `pdsuite rules`, by a fake program."""

import re
from html import unescape
from pathlib import Path

from pdsuite.page.render import render_rules_page
from pdsuite.page.rules import RuleGroup, RuleSection
from pdsuite.rules.reached_rules import RuleRun
from pdsuite.rules.rule_list import SenderRule, load_sender_rules
from tests.helpers import TOP, Call, write
from tests.test_rules import ACK, EXPIRY, RST, events

_GROUP = re.compile(r"^### (.+)\n\n.+\n\n\| rule \| words \|\n\|---\|---\|\n((?:\| .+\n)+)", re.MULTILINE)
_NAME = re.compile(r"^\| `(.+?)`", re.MULTILINE)


def test_the_document_has_the_groups_of_the_list() -> None:
    found = _GROUP.findall((TOP / "docs/RULES.md").read_text())
    groups = [(name, title) for title, rows in found for name in _NAME.findall(rows)]
    assert groups == [(it.name, it.group) for it in load_sender_rules()]


def test_the_page_has_all_rules_in_groups_with_their_scripts(fake_program: Path, tmp_path: Path, call: Call) -> None:
    lines = (f"7 {ACK}", f"12 {ACK} {EXPIRY}", f"15 {EXPIRY}")
    write(tmp_path / "s", a=events(*lines), **{"<b>\x07": events(f"3 {ACK} own.new-rule")})
    called = call(fake_program, "rules", "--html", "page", "s", "none.pkt")
    assert (called.status, called.err) == (2, "none.pkt: error: No such file or directory\n")
    assert called.out == call(fake_program, "rules", "s", "none.pkt").out
    page = (tmp_path / "page/index.html").read_text()
    listed = load_sender_rules()
    names = [it.name for it in listed]
    assert re.findall(r' id="(.+?)"', page) == [*names, "own.new-rule"]
    titles = ["Scripts whose rules aren't known", *dict.fromkeys(it.group for it in listed), "Other rules"]
    assert re.findall(r"<h2>(.+)</h2>", unescape(page)) == titles
    assert re.findall(r'<span class="words">(.*)</span>', unescape(page)) == [*(it.words for it in listed), ""]
    unreached = re.findall(r'<div id="(.+?)" class="rule">.*\n<span class="number warned">none</span></div>', page)
    assert unreached == [it for it in names if it not in (ACK, EXPIRY)]
    opened = page[page.index(f'<details id="{ACK}">') :].partition("</details>")[0]
    assert '<span class="number">2 scripts</span>' in opened
    rows = re.findall(r'<tr><th scope="row">(.+)</th><td>(.+)</td></tr>', opened)
    assert rows == [("s/&lt;b&gt;\\x07.pkt", "3"), ("s/a.pkt", "7, 12")]
    total = f'3 scripts, 1 not passing; <span class="warned">no script comes to {len(names) - 2}</span>'
    assert f"{total} of {len(names) + 1} rules" in page and "none.pkt: error: No such file" in page
    assert "<script" not in page and not re.search(r'(?:src|href)="(?!page\.css|sender\.css)', page)


def test_the_page_says_that_scripts_come_to_each_rule() -> None:
    section = RuleSection(SenderRule(ACK, "an ACK"), (("a.pkt", "3"),))
    page = render_rules_page([RuleGroup("All", (section,))], RuleRun((), 0, ()), is_unproved=False).decode()
    assert "; scripts come to each of 1 rule</p>" in page and "warned" not in page


def test_a_folder_with_other_files_is_refused_before_a_script_runs(
    fake_program: Path, tmp_path: Path, call: Call
) -> None:
    write(tmp_path / "s", a=events(f"7 {RST}") + f"once {tmp_path}/mark\n".encode())
    (tmp_path / "page").mkdir()
    (tmp_path / "page/index.html").write_text("mine")
    called = call(fake_program, "rules", "--html", "page", "s")
    message = "pdsuite: page: holds index.html, which is no part of a page\n"
    assert (called.status, called.out, called.err) == (2, "", message)
    assert [it.name for it in (tmp_path / "page").iterdir()] == ["index.html"]
