"""The fixtures of the tests: the built program, a fake program in its place, and calls of ./pdsuite."""

import os
import shutil
import signal
import subprocess
from collections.abc import Iterator
from pathlib import Path
from tempfile import TemporaryDirectory

import pytest
from _pytest.terminal import TerminalReporter

from pdsuite.faults import Fault
from pdsuite.programs.locate import RECORD, locate_given_or_proved_program
from pdsuite.signals import Stop
from pdsuite.watch.watcher import Watcher
from tests.helpers import HANGS, TOP, Call, Called
from tests.schemas import hold_output
from tests.watch_fixture import WatchFixture

pytest_plugins = ["tests.browser_fixture", "tests.lsp_client"]
UNPROVED = "--unproved"
NEEDS_BUILT = "needs a built program"
FAKE_PDREGRESS = Path(__file__).with_name("fake_pdregress.py")


def pytest_addoption(parser: pytest.Parser) -> None:
    parser.addoption(UNPROVED, action="store_true", help="skip what needs a built program, and name it")


def pytest_terminal_summary(terminalreporter: TerminalReporter) -> None:
    """Names what was skipped for want of a built program, where that was requested."""
    if terminalreporter.config.getoption(UNPROVED):
        skipped = terminalreporter.stats.get("skipped", [])
        untold = [it.nodeid for it in skipped if NEEDS_BUILT in str(it.longrepr)]
        for name in untold:
            terminalreporter.write_line(f"not told, {NEEDS_BUILT}: {name}")
        terminalreporter.write_line(f"{len(untold)} tests of the client need a built program")


@pytest.fixture(scope="session")
def proved(request: pytest.FixtureRequest) -> None:
    """Skips what needs a built program, where that was requested."""
    if request.config.getoption(UNPROVED):
        pytest.skip(NEEDS_BUILT)


@pytest.fixture(autouse=True, scope="session")
def _heeded_signals() -> None:
    """Has no signal ignored, whoever started the tests: `nohup` ignores SIGHUP, a shell SIGINT in the background."""
    for number in (signal.SIGINT, signal.SIGTERM, signal.SIGHUP):
        if signal.getsignal(number) == signal.SIG_IGN:
            signal.signal(number, signal.SIG_DFL)


@pytest.fixture(autouse=True, scope="session")
def _own_cache(tmp_path_factory: pytest.TempPathFactory) -> None:
    """Has runs leave their reports in a folder of the tests."""
    folder = tmp_path_factory.mktemp("cache")
    folder.chmod(0o777)  # Another user runs some.
    os.environ["XDG_CACHE_HOME"] = str(folder)


def _program(name: str) -> Path:
    """The built program of this name."""
    if folder := os.environ.get("PDSUITE_PROGRAMS"):
        return Path(folder, name).resolve()
    built = subprocess.run([TOP / "tools/proved_program.sh", name], capture_output=True, text=True)
    if built.returncode:
        pytest.fail(f"these tests need the built program: {built.stderr.strip()}", pytrace=False)
    return Path(built.stdout.strip())


@pytest.fixture(scope="session")
def programs(proved: None, tmp_path_factory: pytest.TempPathFactory) -> Path:
    """A folder with the built program, or a failure that says which command builds it."""
    folder = tmp_path_factory.mktemp("programs")
    folder.chmod(0o755)  # Another user runs them too.
    (folder / "pdregress").symlink_to(_program("pdregress"))
    return folder


@pytest.fixture(scope="session")
def recording_programs(programs: Path, tmp_path_factory: pytest.TempPathFactory) -> Path:
    """A folder with the built programs and pdrecord; where that isn't built, what needs it is skipped."""
    try:
        recorder = locate_given_or_proved_program(RECORD)
    except Fault as fault:
        pytest.skip(f"needs the built program: {fault}")
    folder = tmp_path_factory.mktemp("recording_programs")
    for program in (*programs.iterdir(), recorder):
        (folder / program.name).symlink_to(program.resolve())
    return folder


@pytest.fixture(scope="session")
def fake_program(tmp_path_factory: pytest.TempPathFactory) -> Path:
    """A folder whose pdregress does what the texts of scripts say."""
    folder = tmp_path_factory.mktemp("stand_in")
    folder.chmod(0o755)
    shutil.copy(FAKE_PDREGRESS, folder / "pdregress")
    return folder


@pytest.fixture
def open_folder() -> Iterator[Path]:
    """A folder that other users can enter. It isn't below pytest's, which each session of pytest closes to them."""
    with TemporaryDirectory(prefix="pdsuite-") as folder:
        Path(folder).chmod(0o755)
        yield Path(folder).resolve()


@pytest.fixture
def call(tmp_path: Path) -> Call:
    """Calls ./pdsuite in the test's folder, by the programs of a folder."""

    def called(folder: Path | None, *words: str | bytes | Path, **more: str) -> Called:
        environment = {**os.environ, **more}
        environment.pop("PDSUITE_PROGRAMS", None)
        if folder is not None:
            environment["PDSUITE_PROGRAMS"] = str(folder)
        done = subprocess.run(
            [TOP / "pdsuite", *words], cwd=tmp_path, env=environment, capture_output=True, timeout=HANGS
        )
        out = done.stdout.decode()
        hold_output(words, out)
        return Called(done.returncode, out, done.stderr.decode())

    return called


@pytest.fixture
def watched_folder(tmp_path: Path, monkeypatch: pytest.MonkeyPatch) -> Iterator[WatchFixture]:
    """A folder that is watched in this process, where nobody goes on writing."""
    monkeypatch.setattr("pdsuite.file_stamps._FRESH", 0)
    top = tmp_path / "top"
    top.mkdir()
    (top / "pdsuite.toml").write_text("root = true\n")
    with Stop() as stop, Watcher() as watcher:
        yield WatchFixture(top, stop, watcher)
