"""Real editors at a script: Neovim and Emacs without a screen, and what each shows on one.

As a program it makes pictures of both at a failing script: `python3 -m tests.editors FOLDER`.
"""

import os
import subprocess
import sys
import tempfile
import time
from collections.abc import Sequence
from io import StringIO
from pathlib import Path

from rich.console import Console
from rich.terminal_theme import DIMMED_MONOKAI
from rich.text import Text

from tests.helpers import HANGS, TOP

EDITORS = TOP / "client/editors"
SCRIPT = """// Two segments are written, and both leave at once.
0     socket(..., SOCK_STREAM, IPPROTO_TCP) = 3
+0    bind(3, ..., ...) = 0
+0    listen(3, 1) = 0
+0.1  < S 0:0(0) win 32792 <mss 1000,sackOK,nop,nop,nop,wscale 7>
+0    > S. 0:0(0) ack 1 <...>
+0.1  < . 1:1(0) ack 1 win 257
+0    accept(3, ..., ...) = 4

// The second one ends the text that was written.
+0    write(4, ..., 2000) = 2000
+0    > . 1:1001(1000) ack 1
+0    > P. 1001:1501(500) ack 1

// Both are acknowledged.
+0.1  < . 1:1(0) ack 2001 win 257
+0    close(4) = 0
+0    > F. 2001:2001(0) ack 1
"""
FAILING = 12
_COLUMNS, _ROWS = 108, 27
_STYLE = "margin:0;padding:14px;color:#d0d0d0;background:#1a1a1a;font:15px/1.3 'DejaVu Sans Mono',monospace"


def neovim(*words: str | Path) -> list[str | Path]:
    """The words that start Neovim with the files for it and nothing of the user's."""
    command = f"let g:pdsuite_command = ['{TOP}/pdsuite', 'lsp']"
    return ["nvim", "--clean", "-n", "--cmd", command, "--cmd", f"set runtimepath^={EDITORS}/vim", *words]


def emacs(*words: str | Path) -> list[str | Path]:
    """The words that start Emacs with the mode and nothing of the user's; Debian's files show it where eglot is."""
    lisp = (
        f"""(progn (setq packetdrill-command '("{TOP}/pdsuite" "lsp")) (require 'packetdrill-mode) (require 'eglot))"""
    )
    return ["emacs", "-q", "-L", EDITORS / "emacs", "--eval", lisp, *words]


def environment(programs: Path) -> dict[str, str]:
    """The environment of an editor, by whose programs scripts are run."""
    return {**os.environ, "PDSUITE_PROGRAMS": str(programs), "LC_ALL": "C.UTF-8"}


class EditorTerminal:
    """A terminal in which an editor runs: keys are sent to it, and what it shows is looked at."""

    def __init__(self, words: Sequence[str | Path], folder: Path, programs: Path) -> None:
        self._socket = str(folder / "tmux")
        self._tmux(
            "-f",
            "/dev/null",
            "new-session",
            "-d",
            "-x",
            str(_COLUMNS),
            "-y",
            str(_ROWS),
            *self._command(words, folder, programs),
        )

    def _command(self, words: Sequence[str | Path], folder: Path, programs: Path) -> list[str]:
        variables = environment(programs)
        kept = [f"{name}={variables[name]}" for name in ("PDSUITE_PROGRAMS", "LC_ALL", "HOME", "PATH")]
        return ["-c", str(folder), "env", *kept, "TERM=tmux-256color", "COLORTERM=truecolor", *map(str, words)]

    def __enter__(self) -> "EditorTerminal":
        return self

    def __exit__(self, *error: object) -> None:
        subprocess.run(["tmux", "-S", self._socket, "kill-server"], capture_output=True)

    def keys(self, *keys: str) -> None:
        """Sends keys, by the names that tmux has for them."""
        self._tmux("send-keys", *keys)

    def shown(self) -> str:
        """The text that is shown, without colours."""
        return self._tmux("capture-pane", "-p")

    def colored(self) -> str:
        """The text that is shown, with colours as a terminal gets them."""
        return self._tmux("capture-pane", "-e", "-p")

    def wait(self, *words: str) -> None:
        """Waits until all these words are shown."""
        until = time.monotonic() + HANGS
        while any(it not in self.shown() for it in words):
            assert time.monotonic() < until, f"{words} weren't shown, but\n{self.shown()}"
            time.sleep(0.05)

    def _tmux(self, *words: str) -> str:
        done = subprocess.run(["tmux", "-S", self._socket, *words], capture_output=True, text=True, timeout=HANGS)
        assert done.returncode == 0, done.stderr
        return done.stdout


def prepared(folder: Path) -> Path:
    """A folder with the failing script; the script's path."""
    (folder / "pdsuite.toml").write_text("root = true\n")
    script = folder / "two.pkt"
    script.write_text(SCRIPT)
    return script


def neovim_screen(folder: Path, programs: Path) -> EditorTerminal:
    """Neovim that shows why the script fails."""
    look = "set number background=dark signcolumn=no | highlight link NormalFloat Normal"
    frame = "lua vim.diagnostic.config({float = {border = 'rounded'}})"
    terminal = EditorTerminal(neovim("-c", look, "-c", frame, prepared(folder)), folder, programs)
    terminal.wait("two.pkt", "fail seq")
    terminal.keys("]d")
    terminal.wait("Diagnostics:")
    return terminal


def emacs_screen(folder: Path, programs: Path) -> EditorTerminal:
    """Emacs that shows why the script fails."""
    lisp = """(progn (setq native-comp-async-report-warnings-errors nil) (menu-bar-mode -1)
      (global-display-line-numbers-mode) (add-hook 'packetdrill-mode-hook #'eglot-ensure))"""
    terminal = EditorTerminal(emacs("-nw", "--eval", lisp, prepared(folder)), folder, programs)
    terminal.wait("two.pkt", "[eglot:", "Flymake[1")
    terminal.keys("M-x", "flymake-goto-next-error", "Enter")
    terminal.wait("actual packet")
    return terminal


def picture(colored: str, target: Path) -> None:
    """Makes a picture of what a terminal shows."""
    console = Console(
        record=True, file=StringIO(), width=_COLUMNS, height=_ROWS, color_system="truecolor", force_terminal=True
    )
    console.print(Text.from_ansi(colored.rstrip("\n")), soft_wrap=True)
    shown = console.export_html(
        theme=DIMMED_MONOKAI, inline_styles=True, code_format="<pre style='margin:0'>{code}</pre>"
    )
    with tempfile.TemporaryDirectory() as work:
        page = Path(work, "page.html")
        page.write_text(f'<meta charset=utf-8><body style="{_STYLE}">{shown}')
        subprocess.run(
            ["chromium", "--headless", "--no-sandbox", "--hide-scrollbars", "--window-size=1020,556"]
            + [f"--screenshot={target}", page.as_uri()],
            check=True,
            capture_output=True,
            timeout=HANGS,
        )


def main() -> None:
    """Makes the pictures."""
    target, programs = Path(sys.argv[1]), Path(os.environ["PDSUITE_PROGRAMS"])
    for name, screen in (("neovim", neovim_screen), ("emacs", emacs_screen)):
        with tempfile.TemporaryDirectory() as work:
            folder = Path(work, "suite")
            folder.mkdir()
            with screen(folder, programs) as terminal:
                picture(terminal.colored(), target / f"{name}.png")


if __name__ == "__main__":
    main()
