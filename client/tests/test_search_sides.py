"""A search for what tells two senders apart, where one of them lacks a key that is set for both."""

from dataclasses import replace
from typing import Any

from pdsuite.commands.search import _side_oracles_without_lacked_keys
from pdsuite.compare.sides import Side, make_side_named_with_settings
from pdsuite.programs.refusals import Refusal
from pdsuite.scripts.config import Claim, layer_of_option
from pdsuite.scripts.renamed import UNKNOWN_KEY
from pdsuite.scripts.settings import sorted_settings


class Oracle:
    """A fake of the oracle of a sender, which lacks some keys."""

    def __init__(self, *lacks: str) -> None:
        self.lacks = lacks

    def refusals_of_claims(self, claims: list[Claim]) -> list[Refusal]:
        return [Refusal(it, UNKNOWN_KEY) for it in claims if it.key in self.lacks]


class FakeScreen:
    """Keeps what is noted."""

    def __init__(self) -> None:
        self.noted: list[str] = []

    def print_note_on_stderr(self, line: str) -> None:
        self.noted.append(line)


class NamedSender:
    """A sender by its name."""

    def __init__(self, name: str) -> None:
        self.name = name

    def __str__(self) -> str:
        return self.name


def side(name: str) -> Side:
    sender: Any = NamedSender(name)
    return make_side_named_with_settings(sender, "", "--base-settings")


def test_each_side_is_asked_without_the_keys_that_its_sender_lacks() -> None:
    """Those that are set for both, and those that inputs may set."""
    oracles: Any = (Oracle("early", "mss"), Oracle())
    screen: Any = FakeScreen()
    common = layer_of_option("early = 2\nlate = 3")
    before, after = _side_oracles_without_lacked_keys(oracles, (side("old"), side("new")), common, screen)
    assert sorted(before.side.lacks) == ["early", "mss"] and not after.side.lacks
    assert (
        before.side.adapted_given_and_own_settings((("early", 2), ("late", 3))),
        after.side.adapted_given_and_own_settings((("early", 2),)),
    ) == (
        (("late", 3),),
        (("early", 2),),
    )
    assert screen.noted == ["pdsuite: old: there is no setting early, which counts as its default"]


def test_a_key_that_a_sender_has_by_its_old_name_has_its_value_there() -> None:
    oracles: Any = (Oracle("abc_limit", "recovery_algorithm", "slow_start_after_idle", "restart_after_idle"), Oracle())
    screen: Any = FakeScreen()
    common = layer_of_option('abc_limit = 2\nrecovery_algorithm = "rfc9937"\nslow_start_after_idle = true')
    old, new = _side_oracles_without_lacked_keys(oracles, (side("old"), side("new")), common, screen)
    given = sorted_settings(common.keys)
    assert old.side.adapted_given_and_own_settings(given) == (("byte_counting", 2), ("recovery_rate", "prr"))
    assert new.side.adapted_given_and_own_settings(given) == given and not new.side.renamed
    words = '"pipe" for "rfc6675", with "prr" for "rfc9937"'
    assert screen.noted == [
        "pdsuite: old: the setting abc_limit is byte_counting there",
        f"pdsuite: old: the setting recovery_algorithm is recovery_rate, with {words} there",
        "pdsuite: old: there is no setting slow_start_after_idle, which counts as its default",
    ]


def test_what_its_own_option_sets_comes_before_a_key_by_its_old_name() -> None:
    layer = layer_of_option("byte_counting = 3", "--base-settings")
    renamed = replace(side("old"), option=layer, renamed=frozenset(["abc_limit"]))
    assert renamed.adapted_given_and_own_settings((("abc_limit", 2),)) == (("byte_counting", 3),)
