"""The Debian package: its version, its man pages and completion, and how it runs in a root that has nothing else."""

import hashlib
import os
import re
import shutil
import subprocess
from collections.abc import Iterator
from pathlib import Path

import pytest

from tests.helpers import HANGS, PASSES, TOP, Called, write
from tests.test_run import expected_rows

PROVED = (TOP / "packaging/programs.txt").read_text().split()
COMMANDS = (
    "compare",
    "diff",
    "expect",
    "import",
    "list",
    "lsp",
    "measure",
    "record",
    "rules",
    "run",
    "search",
    "watch",
)
# A root with apt alone that keeps the lists of packages, so that these are fetched once and without their translations.
LEAN = ("--variant=apt", "--skip=cleanup/apt/lists", '--aptopt=Acquire::Languages "none"', "--dpkgopt=force-unsafe-io")
# Where pages and texts for terminals differ: the ends of lines, blanks, and the prompt of an example.
_SPACE = re.compile(r"[\s$]+")


def output(*words: str | Path, **more: str) -> str:
    """All that a command prints, on both outputs; it may end with any status."""
    environment = {**os.environ, "LC_ALL": "C.UTF-8", **more}
    printed = subprocess.run(words, stdin=subprocess.DEVNULL, capture_output=True, text=True, env=environment)
    return printed.stdout + printed.stderr


def clone_of_tools(folder: Path) -> Path:
    """The tool in a repository of its own, whose commit is tagged as the release."""
    (folder / "tools").mkdir(parents=True, exist_ok=True)
    shutil.copy(TOP / "tools/package.sh", folder / "tools")
    (folder / "CHANGELOG.md").write_text("# Changelog\n\n## 1.2.3\n\n## 1.2.2\n")
    for words in (["init", "-q"], ["add", "."], ["commit", "-qm", "x"], ["tag", "v1.2.3"]):
        git(folder, *words)
    return folder / "tools/package.sh"


def git(folder: Path, *words: str) -> str:
    """The output of git in a folder, at a fixed time."""
    who = {f"GIT_{role}_{what}": "a@b" for role in ("AUTHOR", "COMMITTER") for what in ("NAME", "EMAIL")}
    when = {f"GIT_{role}_DATE": "2026-01-02T12:00:00Z" for role in ("AUTHOR", "COMMITTER")}
    environment = {**os.environ, **who, **when}
    return subprocess.run(
        ["git", "-C", folder, *words], env=environment, check=True, capture_output=True, text=True
    ).stdout.strip()


def test_the_version_is_the_release_only_where_its_tag_is(tmp_path: Path) -> None:
    tool = clone_of_tools(tmp_path)
    assert output(tool, "--version") == "1.2.3\n"
    (tmp_path / "CHANGELOG.md").write_text("# Changelog\n\n## 1.2.3\n\nMore.\n")
    assert output(tool, "--version") == f"1.2.3+git20260102.{git(tmp_path, 'rev-parse', '--short=10', 'HEAD')}.dirty\n"
    git(tmp_path, "commit", "-qam", "y")
    git(tmp_path, "tag", "v1.2.2")
    assert output(tool, "--version") == f"1.2.3+git20260102.{git(tmp_path, 'rev-parse', '--short=10', 'HEAD')}\n"


def test_what_is_not_proved_is_not_packed(tmp_path: Path) -> None:
    tool = clone_of_tools(tmp_path)
    (tmp_path / "packaging").mkdir()
    (tmp_path / "packaging/programs.txt").write_text("pdregress\n")
    for name in ("tools/proved_program.sh", "crates.txt", "prove"):
        shutil.copy(TOP / name, tmp_path / name)
    for module in TOP.glob("tools/*.py"):
        shutil.copy(module, tmp_path / "tools")
    printed = output(tool, tmp_path, PATH="/usr/bin:/bin:/usr/sbin:/sbin")  # without rt nothing is proved
    assert printed.endswith("package: pdregress isn't proved and built\n")
    assert not list(tmp_path.glob("*.deb"))


def tree_whose_program_is_proved(folder: Path) -> Path:
    """The tool in a repository of its own, with a file of each kind that is packed; any program will do."""
    stub = "#!/bin/sh\necho {}\n"
    for name, text in (
        ("prove", stub.format("")),
        ("pdsuite", stub.format("")),
        ("tools/proved_program.sh", stub.format(shutil.which("true"))),
        ("tools/man_page.sh", stub.format("page")),
        ("packaging/programs.txt", "true\n"),
        ("client/packages.txt", "python3-click\n"),
        ("client/packages-more.txt", (TOP / "client/packages-more.txt").read_text()),
        *((name, "\n") for name in ("README.md", "client/pdsuite/main.py", "client/editors/vim/syntax/a.vim")),
        *((name, "\n") for name in ("client/editors/emacs/packetdrill-mode.el", "docs/SUITE.md", "docs/a.png")),
        *((name, "\n") for name in ("docs/a.json", "examples/in/a b.pkt")),
    ):
        (folder / name).parent.mkdir(parents=True, exist_ok=True)
        (folder / name).write_text(text)
        (folder / name).chmod(0o755 if text.startswith("#!") else 0o644)
    shutil.copytree(TOP / "packaging", folder / "packaging", ignore=lambda *_: ["programs.txt"], dirs_exist_ok=True)
    return clone_of_tools(folder)


NOTES = ("client/pdsuite/notes.py", "client/editors/vim/notes.vim", "docs/notes.md", "docs/b.png", "examples/in/b.pkt")


@pytest.mark.parametrize("is_checkout", [True, False])
def test_what_git_does_not_track_is_not_packed(tmp_path: Path, is_checkout: bool) -> None:
    for name in ("dpkg-deb", "dpkg-shlibdeps", "help2man"):
        if shutil.which(name) is None:
            pytest.skip(f"{name} isn't installed")
    top = tmp_path / "tree"
    tool = tree_whose_program_is_proved(top)
    for note in NOTES:
        (top / note).write_text("\n")
    if not is_checkout:
        shutil.rmtree(top / ".git")
    package = output(tool, tmp_path).strip()
    assert Path(package).is_file(), package
    packed = output("dpkg-deb", "-c", package)
    names = [it for it in packed.split("\n") if it and not it.endswith("/")]
    for tracked in ("client/pdsuite/main.py", "vim/syntax/a.vim", "docs/SUITE.md", "docs/a.png", "examples/in/a b.pkt"):
        assert any(it.endswith(f"/{tracked}") for it in names), tracked
    for note in NOTES:
        assert any(it.endswith(note.removeprefix("client/editors")) for it in names) != is_checkout, note


def test_the_programs_of_a_package_have_no_sources_that_could_change(tmp_path: Path, fake_program: Path) -> None:
    top = tmp_path / "usr/lib/pdregress"
    shutil.copytree(TOP / "client", top / "client", ignore=shutil.ignore_patterns("tests", ".mypy_cache"))
    shutil.copy(TOP / "pdsuite", top)
    (top / "version").write_text("1.2.3\n")
    (top / "tools").mkdir()
    (top / "tools/proved_program.sh").write_text(f'#!/bin/sh\necho "$*" >>"{tmp_path}/asked"\nexit 2\n')
    (top / "tools/proved_program.sh").chmod(0o755)
    (tmp_path / "usr/bin").mkdir()
    shutil.copy(fake_program / "pdregress", tmp_path / "usr/bin")
    write(tmp_path / "suite", a=PASSES)
    environment = {key: value for key, value in os.environ.items() if key != "PDSUITE_PROGRAMS"}
    for changed in ("client/pdsuite/main.py", "../../bin/pdregress", "crates.txt"):
        (top / changed).touch()
        words: list[str | Path] = [top / "pdsuite", "run", "--proved", tmp_path / "suite"]
        done = subprocess.run(words, env=environment, capture_output=True, text=True)
        assert (done.returncode, done.stderr, done.stdout.split(" s ")[0][:14]) == (0, "", "total 1 pass 1")
    assert not (tmp_path / "asked").exists()


def test_each_command_has_its_page() -> None:
    commands = output(TOP / "pdsuite", "--help").split("Commands:\n")[1]
    assert tuple(line.split()[0] for line in commands.splitlines()) == COMMANDS
    reported = output(TOP / "tools/man_page.sh", "0.1", "pdsuite", TOP / "pdsuite")
    for name in (f"pdsuite-{it}" for it in COMMANDS):
        assert f".BR {name} (1)" in reported and (TOP / f"packaging/man/{name}.h2m").is_file()


@pytest.mark.parametrize("words", [("pdregress",), ("pdsuite",), *(("pdsuite", it) for it in COMMANDS)])
def test_a_page_has_the_words_of_help(words: tuple[str, ...], programs: Path) -> None:
    if shutil.which("help2man") is None:
        pytest.skip("help2man isn't installed")
    command = TOP / "pdsuite" if words[0] == "pdsuite" else programs / words[0]
    page = output(TOP / "tools/man_page.sh", "0.1", "-".join(words), command, *words[1:])
    # As a terminal would show it, but with neither breaks nor styles.
    text = re.sub(r"\\f[A-Z]|\\f\([A-Z]{2}|\\[,/&]|^\.\S+ ?", "", page, flags=re.MULTILINE)
    text = text.replace(r"\-", "-").replace(r"\e", "\\").replace(r"\'", "'").replace('"', "")
    shown = _SPACE.sub("", text).casefold()
    help = output(command, *words[1:], "--help").replace('"', "")
    usage = " ".join(["Usage:", *words])
    assert any(line.startswith(f"{usage} ") for line in help.splitlines()) and "--help" in help
    assert len(help.splitlines()) > 5
    for line in help.splitlines():
        for part in re.split(r"\s{2,}", line.removeprefix("Usage: ").strip()):
            assert _SPACE.sub("", part).rstrip(":").casefold() in shown, part


@pytest.fixture(scope="module")
def package(proved: None, tmp_path_factory: pytest.TempPathFactory) -> Path:
    """The package of the proved programs, where these are built."""
    for name in PROVED:
        if subprocess.run([TOP / "tools/proved_program.sh", name], capture_output=True).returncode:
            pytest.skip(f"{name} isn't proved and built")
    for tool in ("dpkg-deb", "dpkg-shlibdeps", "help2man"):
        if shutil.which(tool) is None:
            pytest.skip(f"{tool} isn't installed")
    printed = subprocess.run(
        [TOP / "tools/package.sh", tmp_path_factory.mktemp("package")], capture_output=True, text=True, timeout=HANGS
    )
    assert printed.returncode == 0, printed.stderr
    return Path(printed.stdout.splitlines()[-1])


def test_the_programs_are_packed_octet_for_octet(package: Path, tmp_path: Path) -> None:
    subprocess.run(["dpkg-deb", "-x", package, tmp_path], check=True)
    for name in PROVED:
        built = Path(output(TOP / "tools/proved_program.sh", name).strip())
        assert (tmp_path / "usr/bin" / name).read_bytes() == built.read_bytes()
    assert not list(tmp_path.rglob("__pycache__"))


def test_what_is_large_is_suggested_and_the_rest_of_what_some_need_recommended(package: Path) -> None:
    fields = {it: output("dpkg-deb", "-f", package, it).strip().split(", ") for it in ("Recommends", "Suggests")}
    assert fields["Suggests"] == ["python3-distributed", "python3-matplotlib"]
    assert sorted(sum(fields.values(), [])) == (TOP / "client/packages-more.txt").read_text().split()


def test_lintian_finds_no_error(package: Path) -> None:
    if shutil.which("lintian") is None:
        pytest.skip("lintian isn't installed")
    printed = subprocess.run(["lintian", "--fail-on", "error", package], capture_output=True, text=True)
    assert printed.returncode == 0, printed.stdout
    assert "E: " not in printed.stdout


@pytest.fixture(scope="module")
def root(package: Path, tmp_path_factory: pytest.TempPathFactory) -> Iterator[Path]:
    """A root of Debian's with apt alone, in which the package was installed."""
    if shutil.which("mmdebstrap") is None:
        pytest.skip("mmdebstrap isn't installed")
    if os.getuid() != 0:
        pytest.skip("needs root, to change the root folder")
    folder = tmp_path_factory.mktemp("root") / "root"
    made = subprocess.run(["mmdebstrap", *LEAN, "bookworm", folder], capture_output=True, text=True, timeout=HANGS)
    if made.returncode:
        pytest.skip(f"no root was made: {made.stderr.splitlines()[-1:]}")
    shutil.copy(package, folder / package.name)
    shutil.copy("/etc/resolv.conf", folder / "etc/resolv.conf")
    words = ["apt-get", "-q", "install", "-y", "--no-install-recommends", f"./{package.name}"]
    done = in_root(folder, *words, DEBIAN_FRONTEND="noninteractive")
    assert done.status == 0, done.err
    yield folder
    shutil.rmtree(folder)


def in_root(folder: Path, *words: str, text: str = "", **more: str) -> Called:
    """Calls a command in a root, with nothing of this environment."""
    environment = {"PATH": "/usr/sbin:/usr/bin:/sbin:/bin", "HOME": "/root", "LC_ALL": "C.UTF-8", **more}
    done = subprocess.run(["chroot", folder, *words], input=text.encode(), capture_output=True, env=environment)
    return Called(done.returncode, done.stdout.decode(), done.stderr.decode())


def test_all_programs_run_where_nothing_else_is(root: Path, package: Path) -> None:
    send = (TOP / "examples/send.txt").read_text()
    for words in ((), ("--steps",), ("--explain",)):
        done = in_root(root, "pdregress", *words, text=send)
        assert (done.status, done.out.splitlines()[0]) == (0, "send pass 9")
    call = "0 socket(..., SOCK_STREAM, 0) = 3\n"
    assert in_root(root, "pdrecord", text=call) == Called(0, "+" + call, "")
    for name in PROVED:
        assert "Usage: " in in_root(root, name, "--help").err
    assert not (root / "root/.rattle").exists() and in_root(root, "sh", "-c", "command -v rt").status != 0
    done = in_root(root, "pdsuite", "run", "-v", "/usr/share/doc/pdregress/examples/scripts")
    assert (done.status, done.err) == (1, "")
    assert [it.removeprefix("/usr/share/doc/pdregress/examples/scripts/") for it in done.rows] == expected_rows()
    version, *digests = in_root(root, "pdsuite", "--version").out.splitlines()
    assert version.split()[1] == package.name.split("_")[1]
    for name, line in zip(("pdregress", "pdrecord"), digests, strict=True):
        digest = hashlib.sha256((root / "usr/bin" / name).read_bytes()).hexdigest()
        assert line == f"{name} {digest} /usr/bin/{name}"


def test_pages_and_completion_are_installed(root: Path) -> None:
    for name in (*PROVED, "pdsuite", *(f"pdsuite-{it}" for it in COMMANDS)):
        assert (root / f"usr/share/man/man1/{name}.1.gz").exists()
    source = (root / "usr/share/bash-completion/completions/pdsuite").read_text()
    assert "_pdsuite_completion" in source
    completion = "COMP_WORDS='pdsuite w' COMP_CWORD=1 _PDSUITE_COMPLETE=bash_complete pdsuite"
    assert in_root(root, "bash", "-c", completion).out == "plain,watch\n"
    for name in PROVED:
        words = (root / f"usr/share/bash-completion/completions/{name}").read_text()
        assert "--help" in words and "--settings" in words


def test_editors_find_their_files(root: Path) -> None:
    for place in ("nvim/site", "vim/vimfiles"):
        linked = root / f"usr/share/{place}/pack/dist-bundle/opt/pdregress"
        assert (linked / "syntax/packetdrill.vim").is_file() and linked.is_symlink()
    assert (root / "usr/share/emacs/site-lisp/pdregress/packetdrill-mode.el").is_file()
    assert (root / "etc/emacs/site-start.d/50pdregress.el").is_file()


def test_a_package_that_only_some_commands_need_is_named(root: Path) -> None:
    done = in_root(root, "pdsuite", "run", "--scheduler", "127.0.0.1:1", "/usr/share/doc/pdregress/examples/linux")
    line = "python3-distributed isn't installed: apt-get install --no-install-recommends python3-distributed"
    assert (done.status, done.err) == (2, f"pdsuite: {line}\n")


def test_zz_nothing_is_left_when_it_is_removed(root: Path) -> None:
    done = in_root(root, "dpkg", "--purge", "pdregress")
    assert (done.status, done.err) == (0, "")
    assert not [it for it in root.glob("usr/share/*pdregress*")]
    assert not (root / "usr/bin/pdsuite").is_symlink()
