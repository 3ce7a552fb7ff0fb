;;; titan-lsp.el --- titan_lsp as a server of eglot  -*- lexical-binding: t -*-

;; With titan-mode.el beside it on the load path:
;;
;;     (require 'titan-lsp)
;;     (add-hook 'titan-mode-hook #'eglot-ensure)
;;
;; Errors are shown by flymake; `eglot-code-actions' offers the fix. Eglot is part of Emacs from version 29 on, and a package before.

;;; Code:

(require 'eglot)
(require 'titan-mode)

(defcustom titan-lsp-command "titan_lsp"
  "The language server of titan."
  :type 'string
  :group 'titan)

(add-to-list 'eglot-server-programs
             (cons 'titan-mode (lambda (&rest _) (list titan-lsp-command))))

(provide 'titan-lsp)

;;; titan-lsp.el ends here
