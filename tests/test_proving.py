"""Tests of what ./prove keeps: the definitions of a crate, the commit of programs, and how long proofs take.

And of what it says about a contract that is refused.
"""

import os
import subprocess
from pathlib import Path

import pytest

import changed_rules
import cited
import last_proved
import proofs


def make_crate(top: Path, name: str) -> Path:
    """A crate with a file of each kind, and one that no proof reads."""
    crate = top / "crates" / name
    for file in ("src/lib.rt", "src/in/more.rt", "specs/Rule.antt", "proofs/in/Lib.antt", "src/notes.txt"):
        (crate / file).parent.mkdir(parents=True, exist_ok=True)
        (crate / file).write_text("abbrev pub one : N\none = 1\n")
    return crate


def test_definitions_are_kept_beside_another_link_of_the_file(tmp_path: Path) -> None:
    crate = make_crate(tmp_path, "low")
    out, other = crate / "out", tmp_path / "other"
    out.mkdir()
    (out / changed_rules.KEPT).write_text("{}")
    other.hardlink_to(out / changed_rules.KEPT)
    changed_rules.write_definitions_of_last_proof(out, [crate])
    assert other.read_text() == "{}" and changed_rules.new_or_changed_definitions_since_proof(out, [crate]) == []
    (crate / "specs" / "Rule.antt").write_text("abbrev pub one : N\none = 2\n")
    assert [it.place for it in changed_rules.new_or_changed_definitions_since_proof(out, [crate])] == [
        "crates/low/specs/Rule.antt:1"
    ]


def test_programs_are_kept_with_their_commit_also_where_that_has_a_tag(
    tmp_path: Path, monkeypatch: pytest.MonkeyPatch
) -> None:
    monkeypatch.setattr(last_proved, "TOP", tmp_path)
    own = ["git", "-C", str(tmp_path), "-c", "user.name=a", "-c", "user.email=a@b"]
    for words in (["init", "-q"], ["commit", "-q", "--allow-empty", "-m", "one"], ["tag", "-m", "one", "v1.0"]):
        subprocess.run([*own, *words], check=True)
    commit = subprocess.run([*own, "rev-parse", "HEAD"], check=True, capture_output=True, text=True).stdout.strip()
    assert last_proved.commit_hash_marked_if_dirty() == commit


def test_a_proof_reads_what_was_written_in_each_folder(tmp_path: Path, monkeypatch: pytest.MonkeyPatch) -> None:
    monkeypatch.setattr(proofs, "TOP", tmp_path)
    crate = make_crate(tmp_path, "low")
    found = sorted(str(it.relative_to(crate)) for it in proofs.own_source_paths_of_crate("low"))
    assert found == ["proofs/in/Lib.antt", "specs/Rule.antt", "src/in/more.rt", "src/lib.rt"]


def test_a_crate_that_changed_takes_longer(tmp_path: Path, monkeypatch: pytest.MonkeyPatch) -> None:
    """It and a crate that stands on it take the times that were measured; an unchanged one takes next to nothing."""
    monkeypatch.setattr(proofs, "TOP", tmp_path)
    for name in ("low", "high", "apart"):
        crate = make_crate(tmp_path, name)
        (crate / "out").mkdir()
        (crate / "out" / name).touch()
        os.utime(crate / "out" / name, (9_000_000_000, 9_000_000_000))
    uses: dict[str, list[str]] = {"low": [], "high": ["low"], "apart": []}
    times = proofs.Times({"low": 100.0, "high": 200.0})
    assert times.expected_seconds_by_crate(uses) == {"low": 2.0, "high": 2.0, "apart": 2.0}
    later = (9_000_000_001, 9_000_000_001)
    os.utime(tmp_path / "crates/low/proofs/in/Lib.antt", later)
    assert times.expected_seconds_by_crate(uses) == {"low": 100.0, "high": 200.0, "apart": 2.0}


def test_memory_that_the_group_of_processes_has_taken_is_not_free(monkeypatch: pytest.MonkeyPatch) -> None:
    found = {"/proc/meminfo": 9, "/sys/fs/cgroup/memory.max": 8_192, "/sys/fs/cgroup/memory.stat": 3_072}
    monkeypatch.setattr(proofs, "find_number_matching_pattern_in_file", lambda file, _pattern: found.get(file))
    assert proofs.free_memory_within_machine_and_cgroup() == 5_120
    del found["/sys/fs/cgroup/memory.max"]
    assert proofs.free_memory_within_machine_and_cgroup() == 9_216


def test_a_contract_that_names_no_definition_cites_nothing(tmp_path: Path) -> None:
    file = tmp_path / "lib.rt"
    file.write_text("fn f(a: u8) -> u8\n    ensures { result ≡ a }\n{\n    a + 1\n}\n")
    lines = cited.render_contract_around_line_with_citations(file, 4, cited.Definitions([]), tmp_path)
    assert list(lines) == ["  the contract of f:", "    ensures { result ≡ a }"]
