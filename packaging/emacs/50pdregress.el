;;; 50pdregress.el --- Debian's startup file of the package pdregress  -*- lexical-binding: t; -*-

(let ((folder "/usr/share/emacs/site-lisp/pdregress"))
  (when (file-exists-p (expand-file-name "packetdrill-mode.el" folder))
    (add-to-list 'load-path folder)
    (autoload 'packetdrill-mode "packetdrill-mode" "Scripts of packetdrill." t)
    (autoload 'packetdrill-settings-mode "packetdrill-mode" "Settings of scripts." t)
    (add-to-list 'auto-mode-alist '("\\.pkt\\'" . packetdrill-mode))
    (add-to-list 'auto-mode-alist '("/pdsuite\\.toml\\'" . packetdrill-settings-mode))
    (with-eval-after-load 'eglot (require 'packetdrill-mode))))
