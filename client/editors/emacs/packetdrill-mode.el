;;; packetdrill-mode.el --- Scripts of packetdrill, served by pdsuite  -*- lexical-binding: t; -*-

;; Package-Requires: ((emacs "28.2") (eglot "1.9"))

;;; Commentary:

;; Colours for scripts, and `pdsuite lsp' as their server in eglot.  To have it started with each script:
;;
;;   (require 'packetdrill-mode)
;;   (add-hook 'packetdrill-mode-hook #'eglot-ensure)
;;   (add-hook 'packetdrill-settings-mode-hook #'eglot-ensure)

;;; Code:

(require 'cl-lib)
(require 'conf-mode)
(require 'flymake)
(require 'seq)

(declare-function eglot-code-actions "eglot")
(declare-function eglot--apply-workspace-edit "eglot")
(declare-function eglot--uri-to-path "eglot")
(declare-function eglot-managed-p "eglot")
(defvar eglot-server-programs)

(defgroup packetdrill nil
  "Scripts of packetdrill."
  :group 'languages)

(defcustom packetdrill-command '("pdsuite" "lsp")
  "The command that serves scripts."
  :type '(repeat string))

(defvar packetdrill-mode-syntax-table
  (let ((table (make-syntax-table)))
    (modify-syntax-entry ?/ ". 124b" table)
    (modify-syntax-entry ?* ". 23" table)
    (modify-syntax-entry ?\n "> b" table)
    (modify-syntax-entry ?\" "\"" table)
    (modify-syntax-entry ?` "\"" table)
    (modify-syntax-entry ?_ "w" table)
    (modify-syntax-entry ?< "." table)
    (modify-syntax-entry ?> "." table)
    table)
  "What is a comment, a string and a word.")

(defvar packetdrill-font-lock-keywords
  `(("^[ \t]*\\(--[A-Za-z0-9_]+\\(?:=[^ \t\n]*\\)?\\)" 1 font-lock-preprocessor-face)
    ("\\_<\\([A-Za-z_][A-Za-z0-9_]*\\)(" 1 font-lock-function-name-face)
    ("\\([<>]\\) +\\([FSRPUEWC]+\\.?\\|\\.\\|-\\)" (1 font-lock-keyword-face) (2 font-lock-type-face))
    (,(regexp-opt '("ack" "win") 'symbols) . font-lock-keyword-face)
    (,(regexp-opt '("mss" "wscale" "sackOK" "sack" "nop" "eol" "TS" "val" "ecr") 'symbols)
     . font-lock-variable-name-face)
    (,(regexp-opt '("EAGAIN" "EINVAL" "EPIPE" "EBADF" "SOCK_STREAM" "IPPROTO_TCP" "SOL_SOCKET" "SOL_TCP"
                    "SO_REUSEADDR" "TCP_NODELAY" "F_SETFL")
                  'symbols)
     . font-lock-constant-face)
    ("^[ \t]*\\(\\*\\|\\+?[0-9]*\\.?[0-9]+\\(?:~\\+?[0-9]*\\.?[0-9]+\\)?\\)" 1 font-lock-builtin-face))
  "The colours of tokens.")

(defvar packetdrill-mode-map
  (let ((map (make-sparse-keymap)))
    (define-key map (kbd "C-c C-t") #'packetdrill-take)
    map)
  "The keys of a script.")

;;;###autoload
(define-derived-mode packetdrill-mode prog-mode "packetdrill"
  "Scripts of packetdrill."
  (setq-local comment-start "// ")
  (setq-local comment-end "")
  (setq-local comment-start-skip "\\(//+\\|/\\*+\\)\\s-*")
  (setq-local font-lock-defaults '(packetdrill-font-lock-keywords)))

;;;###autoload
(define-derived-mode packetdrill-settings-mode conf-toml-mode "pdsuite"
  "Settings of scripts, the file pdsuite.toml.")

;;;###autoload
(add-to-list 'auto-mode-alist '("\\.pkt\\'" . packetdrill-mode))
;;;###autoload
(add-to-list 'auto-mode-alist '("/pdsuite\\.toml\\'" . packetdrill-settings-mode))

(defun packetdrill-contact (&rest _)
  "The command of the server, for eglot."
  packetdrill-command)

(with-eval-after-load 'eglot
  (add-to-list 'eglot-server-programs '((packetdrill-mode packetdrill-settings-mode) . packetdrill-contact)))

(defun packetdrill-take ()
  "Take over what was sent at this line: the action that the server prefers."
  (interactive)
  (let* ((actions (eglot-code-actions (line-beginning-position) (line-end-position) "quickfix"))
         (action (seq-find (lambda (it) (eq (plist-get it :isPreferred) t)) actions)))
    (if (null action)
        (message "Nothing was sent here that the line could take")
      (eglot--apply-workspace-edit (plist-get action :edit))
      (plist-get action :title))))

;; What the compiler and the prover say of the sender is told of its sources, which eglot doesn't manage, and so leaves out.

(defvar-local packetdrill--faults nil
  "What is said of the source in this buffer, as the protocol has it.")

(defun packetdrill--fault (fault)
  "FAULT as Flymake has it."
  (let* ((start (plist-get (plist-get fault :range) :start))
         (line (1+ (plist-get start :line)))
         (place (flymake-diag-region (current-buffer) line (1+ (plist-get start :character)))))
    (flymake-make-diagnostic (current-buffer) (car place) (cdr place) :error (plist-get fault :message))))

(defun packetdrill--report (report &rest _)
  "Tell Flymake by REPORT what is said of this source."
  (funcall report (mapcar #'packetdrill--fault packetdrill--faults) :region (cons (point-min) (point-max))))

(defun packetdrill--take-faults (faults)
  "Show FAULTS in this buffer in place of those before."
  (setq packetdrill--faults faults)
  (setq-local flymake-diagnostic-functions (list #'packetdrill--report))
  (flymake-mode 1)
  (flymake-start))

(with-eval-after-load 'eglot
  (cl-defmethod eglot-handle-notification :after
    (_server (_method (eql textDocument/publishDiagnostics)) &key uri diagnostics &allow-other-keys)
    "Show what pdsuite says of a source that is open, and that eglot doesn't manage."
    (when-let ((buffer (find-buffer-visiting (eglot--uri-to-path uri))))
      (with-current-buffer buffer
        (when (and (not (eglot-managed-p))
                   (or packetdrill--faults (seq-some (lambda (it) (equal (plist-get it :source) "pdsuite")) diagnostics)))
          (packetdrill--take-faults (append diagnostics nil)))))))

(provide 'packetdrill-mode)
;;; packetdrill-mode.el ends here
