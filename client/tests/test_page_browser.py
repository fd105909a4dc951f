"""The page in a browser: filter, links, marks, keyboard, colours, widths, and scripts that would be HTML."""

import os
import shutil
from pathlib import Path

import pytest
from selenium import webdriver
from selenium.webdriver.common.by import By
from selenium.webdriver.common.keys import Keys

from pdsuite.page.links import page_file_name_of
from tests.browser_fixture import EVIL, HTML, SCRIPTS, Browser, make, path
from tests.helpers import PASSES, TOP, write


@pytest.fixture(scope="module")
def many(driver: webdriver.Chrome, fake_program: Path, tmp_path_factory: pytest.TempPathFactory) -> Browser:
    """The page of as many scripts as one run of the program takes."""
    top = tmp_path_factory.mktemp("many")
    write(top / "in", **{f"s{it:04}": b"row fail 1 seq\n" if it % 100 == 7 else PASSES for it in range(1_024)})
    return Browser(driver, make(top, fake_program))


def test_the_table_has_each_script_with_its_verdict_and_its_first_failing_line(few: Browser) -> None:
    few.look()
    rows = {row.find_element(By.TAG_NAME, "th").text: row for row in few.all("#scripts tbody tr")}
    assert list(rows) == [
        *("in/$\\\\frac{$.pkt", "in/fail.pkt", "in/missing.pkt", "in/seq.pkt", r"in/\xff\x1b.pkt"),
        *(f"in/{EVIL.decode()}.pkt", "in/syntax.pkt"),
        *("in/grün.pkt", "in/pass.pkt"),
    ]
    cells = [it.text for it in rows["in/missing.pkt"].find_elements(By.TAG_NAME, "td")]
    assert cells[2].startswith("all that is queued was sent, up to 1001,")
    cells = [it.text for it in rows["in/seq.pkt"].find_elements(By.TAG_NAME, "td")]
    assert cells == ["fail seq", "9 +0 > P. 1:501(500) ack 1", "the packet has other octets"]


@pytest.mark.parametrize("name", SCRIPTS)
def test_each_row_leads_to_a_page_of_its_own_and_back(name: bytes, few: Browser) -> None:
    few.look()
    (link,) = few.all(f'#scripts a[href="scripts/{page_file_name_of(os.fsdecode(path(name)))}"]')
    shown = link.text
    link.click()
    assert few.texts("h1") == [shown]
    assert few.run("return document.title") == shown
    few.all("nav a")[0].click()
    assert few.texts("tr:target th") == [shown]


def test_what_scripts_hold_is_never_html(few: Browser) -> None:
    for file in ("index.html", f"scripts/{page_file_name_of(os.fsdecode(path(EVIL)))}"):
        few.look(file)
        assert few.all("main img") == few.all("main b") == few.all("main script") == []
        assert few.run("return document.title") not in ("1", "x")
    assert few.texts("h1") == [f"in/{EVIL.decode()}.pkt"]
    assert few.texts(".lines code") == ["// " + HTML.decode().strip(), "0 <b>bold</b>"]
    assert few.texts(".refused") == ["0 <b>bold</b>"]


@pytest.mark.parametrize(
    ("name", "text"), [(b"$\\frac{$", r"// $\\frac{$"), (b"\xff\x1b", r"// \xff\x1b[2J")], ids=["mathtext", "octets"]
)
def test_octets_stand_as_they_are_shown_everywhere(name: bytes, text: str, few: Browser) -> None:
    few.look_at(os.fsdecode(path(name)))
    assert few.texts(".lines code")[0] == text


def test_the_failing_line_and_the_fields_that_differ_are_marked(few: Browser) -> None:
    few.look_at("in/seq.pkt")
    assert few.texts(".lines .named") == ["9\n+0    > P. 1:501(500) ack 1\nfail seq"]
    assert few.texts(".packets mark.fails") == ["1:501(500)", "1:1001(1000)"]
    packets = few.texts("table.packets code")
    assert packets == ["+0 > P. 1:501(500)   ack 1", "+0 > P. 1:1001(1000) ack 1 win 511 // 0.200000"]
    assert "cwnd\n4000 the congestion window, in octets" in "\n".join(few.texts("dl")).replace(" \n", "\n")


def test_a_missing_packet_has_its_reason(few: Browser) -> None:
    few.look_at("in/missing.pkt")
    assert few.texts("table.packets td") == ["+0 > . 1001:2001(1000) ack 1", "none was sent"]
    (reason,) = few.texts(".reason")
    assert reason.startswith("all that is queued was sent, up to 1001,")


# How far down the parts of a page begin.
TOPS = """
return [".text", ".cause section", ".diagram"].map((it) => document.querySelector(it).getBoundingClientRect().top);
"""


@pytest.mark.parametrize("width", [360, 700, 1_000, 1_100, 1_920])
@pytest.mark.parametrize("name", ["seq", "missing", "syntax"])
def test_the_text_comes_before_the_boxes_at_every_width(name: str, width: int, few: Browser) -> None:
    few.look(f"scripts/{page_file_name_of(f'in/{name}.pkt')}", width=width)
    tops = few.run(TOPS)
    assert isinstance(tops, list)
    text, cause, diagram = tops
    assert text <= cause < diagram
    assert (text == cause) == (width >= 1_000)
    parts = few.run("return [...document.querySelectorAll('main > *')].map((it) => it.className)")
    assert isinstance(parts, list) and parts[:2] == ["text", "cause"]


def test_the_line_of_a_row_leads_to_the_line_of_the_text(few: Browser) -> None:
    few.look()
    few.all('#scripts a[aria-label="line 9"]')[0].click()
    assert few.run("return document.querySelector(':target').id") == "L9"
    assert few.texts(":target code") == ["+0    > P. 1:501(500) ack 1"]


def test_the_table_is_filtered_by_name_and_verdict_and_the_address_has_it(few: Browser) -> None:
    few.look()
    few.press("/", "S")
    assert few.texts("#scripts tbody th") == ["in/missing.pkt", "in/seq.pkt", f"in/{EVIL.decode()}.pkt"] + [
        "in/syntax.pkt",
        "in/pass.pkt",
    ]
    few.all("input[value=fail]")[0].click()
    assert few.texts("#scripts tbody th") == ["in/missing.pkt", "in/seq.pkt"]
    assert few.texts("#shown") == ["2 of 9 shown"]
    (hash_,) = [str(few.run("return location.hash"))]
    few.look(f"index.html{hash_}")
    assert few.texts("#scripts tbody th") == ["in/missing.pkt", "in/seq.pkt"]
    few.press(Keys.ESCAPE)
    assert len(few.texts("#scripts tbody th")) == len(SCRIPTS)


def test_all_can_be_reached_by_keyboard(few: Browser) -> None:
    few.look()
    few.press(Keys.TAB)
    assert few.driver.switch_to.active_element.text == "To the table"
    few.press(Keys.ENTER, Keys.TAB)
    assert few.driver.switch_to.active_element.text == "Script"
    few.press(*[Keys.TAB] * 4)
    assert few.driver.switch_to.active_element.text == "in/$\\\\frac{$.pkt"
    few.look()
    few.press("/", Keys.TAB, " ")
    assert few.texts("#scripts tbody td.verdict") == ["pass", "pass"]
    few.press("/", "ss", *[Keys.TAB] * 8)
    assert few.driver.switch_to.active_element.text == "in/pass.pkt"
    few.press(Keys.ENTER)
    assert few.texts("h1") == ["in/pass.pkt"]
    few.look_at("in/seq.pkt")
    labels = []
    for _ in range(5):
        few.press(Keys.TAB)
        element = few.driver.switch_to.active_element
        labels.append(element.get_attribute("aria-label") or element.text)
    assert labels[:4] == ["All scripts", "line 9", "The text of the script", "The two packets"]


def test_without_scripts_of_its_own_the_table_is_whole(few: Browser) -> None:
    few.driver.execute_cdp_cmd("Emulation.setScriptExecutionDisabled", {"value": True})
    try:
        few.look()
        assert len(few.texts("#scripts tbody tr")) == len(SCRIPTS)
        assert not few.all("#filter")[0].is_displayed()
    finally:
        few.driver.execute_cdp_cmd("Emulation.setScriptExecutionDisabled", {"value": False})


# The least contrast of an element's text with what lies behind it, by WCAG 2.
CONTRAST = """
const number = (color) => color.match(/[\\d.]+/g).map(Number);
const light = (color) => number(color).slice(0, 3).map((c) => c / 255)
  .map((c) => c <= 0.04045 ? c / 12.92 : ((c + 0.055) / 1.055) ** 2.4)
  .reduce((sum, c, i) => sum + c * [0.2126, 0.7152, 0.0722][i], 0);
const behind = (element) => {
  const color = getComputedStyle(element).backgroundColor;
  return number(color)[3] === 0 ? behind(element.parentElement) : color;
};
return Math.min(...[...document.querySelectorAll("body *")]
  .filter((it) => [...it.childNodes].some((node) => node.nodeType === 3 && node.data.trim()) && it.checkVisibility())
  .map((it) => [light(getComputedStyle(it).color), light(behind(it))].sort((a, b) => b - a))
  .map(([high, low]) => (high + 0.05) / (low + 0.05)));
"""


@pytest.mark.parametrize("scheme", ["light", "dark"])
@pytest.mark.parametrize("name", [None, b"seq", b"missing", b"syntax"])
def test_text_stands_out_in_both_schemes(scheme: str, name: bytes | None, few: Browser) -> None:
    file = "index.html" if name is None else f"scripts/{page_file_name_of(os.fsdecode(path(name)))}"
    few.look(file, scheme=scheme)
    paper = str(few.run("return getComputedStyle(document.body).backgroundColor"))
    assert ("rgb(250" in paper) == (scheme == "light")
    contrast = few.run(CONTRAST)
    assert isinstance(contrast, float | int) and contrast >= 4.5


@pytest.mark.parametrize("width", [360, 1_600])
@pytest.mark.parametrize("name", [None, *SCRIPTS])
def test_no_page_is_wider_than_its_window(width: int, name: bytes | None, few: Browser) -> None:
    file = "index.html" if name is None else f"scripts/{page_file_name_of(os.fsdecode(path(name)))}"
    few.look(file, width=width)
    assert few.run("return document.documentElement.scrollWidth") == width


def test_a_thousand_scripts_are_filtered_at_once(many: Browser) -> None:
    many.look()
    assert many.run("return document.querySelectorAll('#scripts tbody tr').length") == 1_024
    many.press("/", "s09")
    assert many.texts("#shown") == ["100 of 1024 shown"]
    many.all("input[value=fail]")[0].click()
    assert many.texts("#scripts tbody th") == ["in/s0907.pkt"]
    files = {it.name for it in (many.folder / "scripts").iterdir()}
    assert files == {page_file_name_of(f"in/s{number:04}.pkt") for number in range(1_024)}


@pytest.fixture(scope="module")
def drawn(driver: webdriver.Chrome, fake_program: Path, tmp_path_factory: pytest.TempPathFactory) -> Browser:
    """The page of scripts with a diagram, whose recordings are there already."""
    top = tmp_path_factory.mktemp("drawn")
    programs = top / "programs"
    shutil.copytree(fake_program, programs)
    recording = TOP / "client/tests/recordings/timeout.txt"
    (programs / "pdrecord").write_text(f"#!/bin/sh\ncat >/dev/null\ncat {recording}\n")
    (programs / "pdrecord").chmod(0o755)
    write(top / "in", seq=b"row fail 1 seq\n", fail=b"row fail 1 seq\n")
    return Browser(driver, make(top, programs))


# The colours in which bars are filled, of segments and of those that are sent again; of the picture that is seen.
FILLS = """
const svg = [...document.querySelectorAll(".diagram svg")].find((it) => it.checkVisibility());
return ["new", "again"].map((name) => getComputedStyle(svg.querySelector(`g.${name} path, g.${name} use`)).fill);
"""


@pytest.mark.parametrize(("width", "name"), [(360, "narrow"), (1_600, "wide")])
def test_a_diagram_stands_in_the_page_in_the_size_and_the_colours_of_its_reader(
    width: int, name: str, drawn: Browser
) -> None:
    fills = []
    for scheme in ("light", "dark"):
        drawn.look(f"scripts/{page_file_name_of('in/seq.pkt')}", width=width, scheme=scheme)
        seen = [it.get_attribute("class") for it in drawn.all(".diagram svg") if it.is_displayed()]
        assert seen == [name]
        assert drawn.run("return document.documentElement.scrollWidth") == width
        fills.append(drawn.run(FILLS))
    assert fills == [["rgb(31, 95, 174)", "rgb(212, 56, 13)"], ["rgb(118, 176, 255)", "rgb(255, 138, 102)"]]
    texts = drawn.run(f"return [...document.querySelectorAll('svg.{name} text')].map((it) => it.textContent)")
    assert isinstance(texts, list)
    assert {"timeout, RTO 1 s", "timeout, RTO 2 s", "segment sent again", "cwnd"} <= set(texts)


# Texts of the picture that is seen, of which one lies over another.
OVERLAPS = """
const svg = [...document.querySelectorAll(".diagram svg")].find((it) => it.checkVisibility());
const boxes = [...svg.querySelectorAll("text")].map((it) => [it.textContent, it.getBoundingClientRect()]);
const apart = (a, b) => a.right <= b.left || b.right <= a.left || a.bottom <= b.top + 2 || b.bottom <= a.top + 2;
return boxes.flatMap(([one, a], i) => boxes.slice(i + 1).filter(([, b]) => !apart(a, b)).map(([two]) => [one, two]));
"""


@pytest.mark.parametrize("width", [360, 1_600])
def test_no_text_of_a_diagram_lies_over_another(width: int, drawn: Browser) -> None:
    drawn.look(f"scripts/{page_file_name_of('in/seq.pkt')}", width=width)
    assert drawn.run(OVERLAPS) == []
