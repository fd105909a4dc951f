"""The files for Neovim, Vim and Emacs: each editor opens a failing script, shows why, and takes over what was sent."""

import os
import shutil
import subprocess
from collections.abc import Callable
from pathlib import Path

import pytest

from tests.editors import (
    EDITORS,
    FAILING,
    SCRIPT,
    EditorTerminal,
    emacs,
    emacs_screen,
    environment,
    neovim,
    neovim_screen,
    picture,
    prepared,
)
from tests.helpers import HANGS, TOP, Call

NEOVIM = """
local function wait(happened)
  assert(vim.wait(60000, happened, 10), 'nothing came')
end
wait(function() return #vim.diagnostic.get(0) == 1 end)
local found = vim.diagnostic.get(0)[1]
print(found.lnum + 1, found.code, found.message)
vim.api.nvim_win_set_cursor(0, { found.lnum + 1, 0 })
print(require('pdsuite').take())
wait(function() return #vim.diagnostic.get(0) == 0 end)
print(#vim.lsp.buf_request_sync(0, 'textDocument/documentSymbol', vim.lsp.util.make_range_params(), 5000)[1].result)
vim.cmd('write')
vim.cmd('qall!')
"""
EMACS = """
(defun wait (happened)
  (let ((until (+ (float-time) 60)))
    (while (not (funcall happened))
      (when (> (float-time) until) (error "Nothing came"))
      (accept-process-output nil 0.02))))
(setq make-backup-files nil)
(find-file (getenv "SCRIPT"))
(apply #'eglot--connect (eglot--guess-contact))
(wait (lambda () (flymake-start) (= 1 (length (flymake-diagnostics)))))
(let ((found (car (flymake-diagnostics))))
  (goto-char (flymake-diagnostic-beg found))
  (princ (format "%d %s\\n" (line-number-at-pos) (flymake-diagnostic-text found))))
(princ (format "%s\\n" (packetdrill-take)))
(eglot--signal-textDocument/didChange) ; which waits until Emacs is idle, and without a terminal it never is
(wait (lambda () (flymake-start) (null (flymake-diagnostics))))
(princ (format "%d\\n" (length (cdar (eglot-imenu)))))
(save-buffer)
(eglot-shutdown (eglot-current-server))
"""
ACTUAL = (
    "actual packet: +0 > P. 1001:2001(1000) ack 1 win 511 // 0.200000, sent by line 11: new data (RFC 9293, section "
    "3.8.6.2.1)"
)


def test_neovim_takes_over_what_was_sent(recording_programs: Path, tmp_path: Path, call: Call) -> None:
    script = prepared(tmp_path)
    play = tmp_path / "play.lua"
    play.write_text(NEOVIM)
    done = subprocess.run(
        neovim("--headless", "-c", f"luafile {play}", script),
        env=environment(recording_programs),
        cwd=tmp_path,
        capture_output=True,
        text=True,
        timeout=HANGS,
    )
    lines = done.stderr.splitlines()
    assert lines[0] == f"{FAILING + 1} seq fail seq: the packet has other octets", done.stderr
    assert lines[1] == ACTUAL and lines[2].startswith("Take the packet that was sent")
    ends_passing(script, recording_programs, call)


def test_emacs_takes_over_what_was_sent(recording_programs: Path, tmp_path: Path, call: Call) -> None:
    script = prepared(tmp_path)
    play = tmp_path / "play.el"
    play.write_text(EMACS)
    done = subprocess.run(
        emacs("--batch", "-l", play),
        env={**environment(recording_programs), "SCRIPT": str(script)},
        cwd=tmp_path,
        capture_output=True,
        text=True,
        timeout=HANGS,
    )
    assert f"{FAILING + 1} pdsuite [seq]: fail seq: the packet has other octets\n{ACTUAL}\n" in done.stdout, done.stderr
    assert "\nTake the packet that was sent\n3\n" in done.stdout
    ends_passing(script, recording_programs, call)


def ends_passing(script: Path, programs: Path, call: Call) -> None:
    """Holds that the script passes now, with one field changed."""
    assert script.read_text() == SCRIPT.replace("1501(500)", "2001(1000)")
    assert call(programs, "run", "-v", script).rows == [f"{script}: pass 13"]


@pytest.mark.parametrize("screen", [neovim_screen, emacs_screen], ids=["neovim", "emacs"])
def test_an_editor_shows_why_a_script_fails(
    screen: Callable[[Path, Path], EditorTerminal], recording_programs: Path, tmp_path: Path
) -> None:
    with screen(tmp_path, recording_programs) as terminal:
        assert "1001:1501(500) ack 1" in terminal.shown()
        picture(terminal.colored(), tmp_path / "picture.png")
    assert (tmp_path / "picture.png").read_bytes().startswith(b"\x89PNG")


def test_the_mode_is_compiled_without_a_warning(tmp_path: Path) -> None:
    shutil.copy(EDITORS / "emacs/packetdrill-mode.el", tmp_path)
    words = ["--eval", "(setq byte-compile-error-on-warn t)", "-f", "batch-byte-compile"]
    done = subprocess.run(
        ["emacs", "-q", "--batch", *words, tmp_path / "packetdrill-mode.el"],
        capture_output=True,
        text=True,
        timeout=HANGS,
    )
    assert done.returncode == 0, done.stderr


def test_vim_lists_where_a_script_fails(recording_programs: Path, tmp_path: Path) -> None:
    script = prepared(tmp_path)
    words = [
        "-c",
        "compiler pdsuite",
        "-c",
        "silent make!",
        "-c",
        "for it in getqflist() | echo it.lnum it.text | endfor",
    ]
    done = subprocess.run(
        neovim("--headless", script, *words, "-c", "qall!"),
        env={**environment(recording_programs), "PATH": f"{TOP}:{os.environ['PATH']}"},
        cwd=tmp_path,
        capture_output=True,
        text=True,
        timeout=HANGS,
    )
    assert f"{FAILING + 1} fail seq: the packet has other octets" in done.stderr.replace("\r", "")
