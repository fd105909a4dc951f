"""Real editors where nothing is proved: each follows a sender that changes, and shows what its compiler says."""

import subprocess
from collections.abc import Sequence
from pathlib import Path

import pytest

from tests.editors import EDITORS
from tests.helpers import HANGS
from tests.test_watch_builds import SOURCE, tree_of_one_script
from tests.tree_fixture import Tree

NEOVIM = """
local function wait(happened)
  assert(vim.wait(200000, happened, 10), 'nothing came')
end
local script = vim.api.nvim_get_current_buf()
local function lens()
  local found = vim.lsp.codelens.get(script)[1]
  return found and found.command and found.command.title or ''
end
wait(function() return lens() == 'pass: 1 event UNPROVED' end)
vim.cmd('split ' .. vim.env.SOURCE)
local source = vim.api.nvim_get_current_buf()
vim.fn.writefile({ '// wrong' }, vim.env.SOURCE)
wait(function() return #vim.diagnostic.get(source) == 1 end)
print(vim.diagnostic.get(source)[1].message)
wait(function() return lens() == 'pass: 1 event (by the sender before)' end)
vim.fn.writefile({ '// fail 1 seq' }, vim.env.SOURCE)
wait(function() return #vim.diagnostic.get(source) == 0 and #vim.diagnostic.get(script) == 1 end)
print(vim.diagnostic.get(script)[1].message)
wait(function() return lens() == 'fail 1 seq UNPROVED' end)
vim.cmd('qall!')
"""
EMACS = """
(defun wait (happened)
  (let ((until (+ (float-time) 200)))
    (while (not (funcall happened))
      (when (> (float-time) until) (error "Nothing came"))
      (accept-process-output nil 0.02))))
(defun put-rule (rule)
  ; By another program, since Emacs asks before it writes over what is open.
  (call-process "sh" nil nil nil "-c" (format "echo '// %s' >$SOURCE" rule)))
(defun said (buffer)
  (with-current-buffer buffer (flymake-start) (mapcar #'flymake-diagnostic-text (flymake-diagnostics))))
(defvar source (find-file-noselect (getenv "SOURCE")))
(defvar script (find-file "a.pkt"))
(apply #'eglot--connect (eglot--guess-contact))
(put-rule "wrong")
(wait (lambda () (said source)))
(princ (format "%s\\n" (car (said source))))
(put-rule "fail 1 seq")
(wait (lambda () (and (null (said source)) (string-match "fail seq: .*" (format "%s" (said script))))))
(princ (format "%s\\n" (match-string 0 (format "%s" (said script)))))
(eglot-shutdown (eglot-current-server))
"""
# The diagnostic that is shown of the source, and then that of the script.
PRINTED = ("error[mismatch]: wrong", "fail seq: so it is")
LEFT = "pdsuite: the sender has changed: rows are old"


@pytest.fixture
def tree(tmp_path: Path) -> Tree:
    return tree_of_one_script(tmp_path)


def output_of(tree: Tree, words: Sequence[str | Path]) -> "subprocess.CompletedProcess[str]":
    """The outputs and the status of an editor that is started in the folder of the scripts."""
    there = {**tree.environment, "SOURCE": str(tree.top / SOURCE), "LC_ALL": "C.UTF-8"}
    return subprocess.run(words, cwd=tree.suite, env=there, capture_output=True, text=True, timeout=HANGS)


def test_neovim_follows_a_sender_that_is_built(tree: Tree) -> None:
    (tree.notes / "play.lua").write_text(NEOVIM)
    command = f"let g:pdsuite_command = ['{tree.top}/pdsuite', 'lsp']"
    words = ["--cmd", command, "--cmd", f"set runtimepath^={EDITORS}/vim", "--headless"]
    done = output_of(tree, ["nvim", "--clean", "-n", *words, "-c", f"luafile {tree.notes}/play.lua", "a.pkt"])
    lines = done.stderr.splitlines()
    assert [it for it in lines if it in PRINTED] == list(PRINTED) and lines.count("LSP[pdsuite][Warning] " + LEFT) == 1


def test_emacs_follows_a_sender_that_is_built(tree: Tree) -> None:
    (tree.notes / "play.el").write_text(EMACS)
    lisp = f"""(progn (require 'packetdrill-mode) (require 'eglot)
      (setq packetdrill-command '("{tree.top}/pdsuite" "lsp")))"""
    words: list[str | Path] = ["-q", "--batch", "-L", EDITORS / "emacs", "--eval", lisp, "-l", tree.notes / "play.el"]
    done = output_of(tree, ["emacs", *words])
    lines = done.stdout.splitlines()
    assert [it for it in lines if it in PRINTED] == list(PRINTED), done.stderr
