"""The table of the page in a browser: in which order its scripts stand, and how a reader changes that."""

from collections.abc import Callable

import pytest
from selenium.webdriver.common.keys import Keys
from selenium.webdriver.remote.webelement import WebElement

from tests.browser_fixture import EVIL, Browser


def heads(browser: Browser) -> dict[str, WebElement]:
    """The buttons that sort the table, by their words."""
    return {it.text: it for it in browser.all("#scripts thead button")}


ALL = {
    "$": "in/$\\\\frac{$.pkt",
    "<": f"in/{EVIL.decode()}.pkt",
    "x": r"in/\xff\x1b.pkt",
    **{name[0]: f"in/{name}.pkt" for name in ("fail", "grün", "missing", "pass")},
    **{name[1]: f"in/{name}.pkt" for name in ("seq", "syntax")},
}


def order(browser: Browser) -> str:
    """The scripts in the order of the table, a letter each."""
    letters = {path: letter for letter, path in ALL.items()}
    return "".join(letters[it] for it in browser.texts("#scripts tbody th"))


PRESSES: list[Callable[[WebElement], object]] = [
    lambda it: it.click(),
    lambda it: it.send_keys(Keys.ENTER),
    lambda it: it.send_keys(" "),
]
FIRST = "$fmex<ygp"


@pytest.mark.parametrize("press", PRESSES, ids=["click", "enter", "space"])
def test_the_table_is_sorted_by_a_click_and_by_keys(press: Callable[[WebElement], object], few: Browser) -> None:
    few.look()
    assert order(few) == FIRST
    button, head = heads(few)["Script"], few.all("#scripts thead th")[0]
    seen = []
    for _ in range(3):
        press(button)
        seen.append((order(few), head.get_attribute("aria-sort")))
        assert few.driver.switch_to.active_element == button
    assert seen == [("$<xfgmpey", "ascending"), ("yepmgfx<$", "descending"), (FIRST, "none")]


def test_empty_cells_come_last_and_the_address_has_the_order(few: Browser) -> None:
    few.look()
    for place, orders in (("2", (FIRST, "gp<ymfx$e")), ("3", ("fy$x<emgp", "me$x<fygp"))):
        for sign, wanted in zip(("", "-"), orders):
            few.look(f"index.html#sort={sign}{place}")
            if place == "3":
                assert order(few) == wanted
    few.look("index.html#sort=2")
    assert order(few)[-4:] == "<ygp"
    few.look("index.html#sort=4")
    assert order(few).endswith("gp")
    heads(few)["Reason"].click()
    assert order(few).endswith("gp") and few.run("return location.hash") == "#sort=-4"
    few.look("index.html#sort=99&name=in/s")
    assert order(few) == "ey"


@pytest.mark.parametrize("width", [360, 1_100])
def test_the_table_can_be_sorted_at_every_width(width: int, few: Browser) -> None:
    few.look(width=width)
    heads(few)["Script"].click()
    assert order(few) == "$<xfgmpey"


@pytest.mark.parametrize("width", [360, 1_300])
def test_a_head_sorts_wherever_it_is_clicked(width: int, few: Browser) -> None:
    few.look(width=width)
    few.all("#scripts thead th")[0].click()  # in its middle, where no word is
    assert order(few) == "$<xfgmpey"
