;;; Emacs 29 or later (before that with the package eglot): load this file from init.el.
(define-derived-mode pest-mode prog-mode "Pest"
  "Grammars of pest."
  (setq-local comment-start "// ")
  (modify-syntax-entry ?/ ". 124b" pest-mode-syntax-table)
  (modify-syntax-entry ?* ". 23n" pest-mode-syntax-table)
  (modify-syntax-entry ?\n "> b" pest-mode-syntax-table)
  (modify-syntax-entry ?_ "_" pest-mode-syntax-table)
  (modify-syntax-entry ?' "\"" pest-mode-syntax-table))

(add-to-list 'auto-mode-alist '("\\.pest\\'" . pest-mode))

(with-eval-after-load 'eglot
  (add-to-list 'eglot-server-programs '(pest-mode . ("pest-language-server"))))

(add-hook 'pest-mode-hook 'eglot-ensure)

(provide 'pest-mode)
