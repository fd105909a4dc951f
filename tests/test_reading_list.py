"""Tests of tools/reading_list.py: which lines a promise rests on."""

from pathlib import Path

import pytest

import reading_list

FILES = {
    "crates.txt": "pd_low:\npd_high: pd_low\n",
    "crates/pd_low/specs/Rules.antt": "-- why\nabbrev pub limit : ℕ\nlimit = 3\n\nabbrev pub other : ℕ\nother = 4\n",
    "crates/pd_high/src/lib.rt": (
        "ghost use Rattle.pd_low.specs.Rules.{limit};\n\n"
        "/// It runs.\npub fn run() -> u32\n    ensures { result ≡ limit }\n{\n    3\n}\n"
    ),
}


def test_each_line_of_a_contract_and_of_what_it_names_is_counted(
    tmp_path: Path, monkeypatch: pytest.MonkeyPatch, capsys: pytest.CaptureFixture[str]
) -> None:
    for path, text in FILES.items():
        (tmp_path / path).parent.mkdir(parents=True, exist_ok=True)
        (tmp_path / path).write_text(text)
    monkeypatch.setattr(reading_list, "CRATES", tmp_path / "crates")
    reading_list.main(["pd_high::run"])
    lines = ["- `pd_high`: `src/lib.rt` 3", "- `pd_low`: `specs/Rules.antt` 3", "", "In all 6 lines of 2 files."]
    assert capsys.readouterr().out.splitlines() == lines
