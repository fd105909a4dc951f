"""Files are written whole or not at all, and every failure names its path."""

import os
import resource
import subprocess
from pathlib import Path

import pytest

from pdsuite import files
from pdsuite.faults import Fault
from tests.helpers import PASSES, TOP, write


def test_a_file_is_written_beside_and_renamed(tmp_path: Path) -> None:
    path = tmp_path / "out.xml"
    path.write_bytes(b"old")
    number = path.stat().st_ino
    files.write_file_atomically(path, b"new")
    assert path.read_bytes() == b"new"
    assert path.stat().st_ino != number
    assert os.listdir(tmp_path) == ["out.xml"]


def test_a_link_stays_a_link(tmp_path: Path) -> None:
    (tmp_path / "link").symlink_to("out.xml")
    files.write_file_atomically(tmp_path / "link", b"new")
    assert (tmp_path / "out.xml").read_bytes() == b"new"
    assert (tmp_path / "link").is_symlink()


def test_a_file_has_the_rights_that_the_mask_leaves(tmp_path: Path) -> None:
    mask = os.umask(0o027)
    files.write_file_atomically(tmp_path / "out.xml", b"new")
    os.umask(mask)
    assert (tmp_path / "out.xml").stat().st_mode & 0o777 == 0o640


@pytest.mark.parametrize(
    ("path", "reason"),
    [
        ("/dev/full", "/dev/full: No space left on device"),
        ("nowhere/out.xml", "nowhere/out.xml: No such file or directory"),
        ("suite", "suite: Is a directory"),
        ("suite/a.pkt/b", "suite/a.pkt/b: Not a directory"),
    ],
)
def test_what_cannot_be_written_is_a_line_with_its_path(
    path: str, reason: str, tmp_path: Path, monkeypatch: pytest.MonkeyPatch
) -> None:
    write(tmp_path / "suite", a=PASSES)
    monkeypatch.chdir(tmp_path)
    with pytest.raises(Fault) as fault:
        files.write_file_atomically(Path(path), b"new")
    assert str(fault.value) == reason


def test_a_full_disk_leaves_the_old_file(tmp_path: Path) -> None:
    """A disk of 64 KiB, where the system lets us have one."""
    disk = tmp_path / "disk"
    disk.mkdir()
    inside = (
        'mount -t tmpfs -o size=64k none "$1" && cd "$1" && echo old >out.xml && head -c 65536 /dev/zero >full; '
        'exec /usr/bin/python3 -I -c "$2"'
    )
    code = (
        f"import sys; sys.path.insert(0, {str(TOP / 'client')!r})\n"
        "from pathlib import Path; from pdsuite.files import write_file_atomically; from pdsuite.faults import Fault\n"
        "try:\n    write_file_atomically(Path('out.xml'), b'x' * 100_000)\n"
        "except Fault as fault:\n    print(fault, Path('out.xml').read_text().strip(), *sorted(Path().iterdir()))\n"
    )
    command = ["unshare", "-rm", "sh", "-c", inside, "sh", str(disk), code]
    done = subprocess.run(command, capture_output=True, text=True)
    if "mount" in done.stderr or "unshare" in done.stderr:
        pytest.skip("no file system can be mounted here")
    assert done.stdout == "out.xml: No space left on device old full out.xml\n"


def test_a_write_that_fails_leaves_nothing_beside(tmp_path: Path, monkeypatch: pytest.MonkeyPatch) -> None:
    path = tmp_path / "out.xml"
    path.write_bytes(b"old")
    before = resource.getrlimit(resource.RLIMIT_FSIZE)
    resource.setrlimit(resource.RLIMIT_FSIZE, (1_000, before[1]))
    try:
        with pytest.raises(Fault, match="out.xml: File too large"):
            files.write_file_atomically(path, b"x" * 10_000)
    finally:
        resource.setrlimit(resource.RLIMIT_FSIZE, before)
    assert path.read_bytes() == b"old"
    assert os.listdir(tmp_path) == ["out.xml"]


@pytest.mark.parametrize("words", [["run", "-v"], ["run", "--tap"], ["run", "--json"], ["run", "--github"], ["list"]])
def test_a_full_disk_under_standard_output_is_a_line(words: list[str], fake_program: Path, tmp_path: Path) -> None:
    write(tmp_path, a=PASSES)
    environment = {**os.environ, "PDSUITE_PROGRAMS": str(fake_program)}
    with open("/dev/full", "wb") as full:
        done = subprocess.run(
            [TOP / "pdsuite", *words, "."], cwd=tmp_path, env=environment, stdout=full, stderr=subprocess.PIPE
        )
    assert (done.returncode, done.stderr) == (2, b"pdsuite: standard output: No space left on device\n")


@pytest.mark.parametrize("form", ["-v", "--tap", "--json"])
def test_what_standard_output_does_not_take_still_stands_in_the_file(
    form: str, fake_program: Path, tmp_path: Path
) -> None:
    write(tmp_path, a=PASSES)
    environment = {**os.environ, "PDSUITE_PROGRAMS": str(fake_program)}
    command = [str(TOP / "pdsuite"), "run", form, "--junit", "out.xml", "."]
    with open("/dev/full", "wb") as full:
        done = subprocess.run(command, cwd=tmp_path, env=environment, stdout=full, stderr=subprocess.PIPE)
    assert done.returncode == 2
    assert b'name="a.pkt"' in (tmp_path / "out.xml").read_bytes()


def test_a_folder_that_cannot_be_written_whole_is_not_there(tmp_path: Path) -> None:
    before = resource.getrlimit(resource.RLIMIT_FSIZE)
    resource.setrlimit(resource.RLIMIT_FSIZE, (1_000, before[1]))
    try:
        with pytest.raises(Fault, match="new: File too large"):
            files.write_folder_atomically(tmp_path / "new", [("a.pkt", b"x"), ("b/c.pkt", b"x" * 10_000)])
    finally:
        resource.setrlimit(resource.RLIMIT_FSIZE, before)
    assert os.listdir(tmp_path) == []
