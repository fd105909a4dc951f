"""Tests of tools/repeated_rules.py: what proofs repeat of a rule."""

from pathlib import Path

import pytest

import repeated_rules

RULES = "least = 2\n\ngreatest a = lowest a (between 3 4)\n"
PROOF = "use Rattle.low.specs.Rules.{greatest}\n\nfirst = 2 + 1\n\nsecond = 3\n\nthird b = lowest (f b) (between 3 4)\n"


def test_a_body_and_the_numbers_above_two_of_what_is_imported_are_named(
    tmp_path: Path, monkeypatch: pytest.MonkeyPatch, capsys: pytest.CaptureFixture[str]
) -> None:
    for name, text in (("specs/Rules.antt", RULES), ("proofs/Lib.antt", PROOF)):
        file = tmp_path / "crates/low" / name
        file.parent.mkdir(parents=True)
        file.write_text(text)
    monkeypatch.setattr(repeated_rules, "TOP", tmp_path)
    assert repeated_rules.main([]) == 0
    assert capsys.readouterr().out.splitlines() == [
        f"crates/low/proofs/Lib.antt:{line}"
        for line in ("5: has 3 of greatest", "7: has 3 of greatest", "7: has 4 of greatest", "7: says greatest again")
    ]
