;;; titan-mode.el --- Major mode for Titanium's integer core  -*- lexical-binding: t; -*-

;; Version: 1.0
;; Package-Requires: ((emacs "26.1"))
;; Keywords: languages

;;; Commentary:

;; Highlighting, indentation and compilation of programs `.ti', which titan compiles.
;; `M-x compile' checks the program of the buffer; `next-error' goes to the error.

;;; Code:

(require 'cl-lib)
(require 'compile)

(defgroup titan nil
  "Programs in Titanium's integer core."
  :group 'languages)

(defcustom titan-command "titan"
  "The command titan."
  :type 'string)

(defcustom titan-indent-offset 2
  "Columns by which the inside of a block is indented."
  :type 'integer
  :safe #'integerp)

;; tools/editors.py: begin
(defconst titan--control
  '("break" "continue" "else" "for" "foreach" "if" "return" "while")
  "Reserved words: control.")
(defconst titan--declaration
  '("class")
  "Reserved words: declaration.")
(defconst titan--modifier
  '("final" "private" "protected" "public" "static")
  "Reserved words: modifier.")
(defconst titan--qualifier
  '("local" "single")
  "Reserved words: qualifier.")
(defconst titan--type
  '("boolean" "Domain" "int" "long" "Point" "RectDomain" "SharedRegion" "String" "void")
  "Reserved words: type.")
(defconst titan--operation
  '("broadcast" "new")
  "Reserved words: operation.")
(defconst titan--literal
  '("false" "null" "true")
  "Reserved words: literal.")
(defconst titan--receiver
  '("this")
  "Reserved words: receiver.")
(defconst titan--library
  '("println" "System" "Ti")
  "Reserved words: library.")
(defconst titan--after-foreach
  '("in")
  "Names that mean something after `foreach'.")
(defconst titan--after-broadcast
  '("from")
  "Names that mean something after `broadcast'.")
(defconst titan--after-ti
  '("barrier" "numProcs" "thisProc")
  "Names that mean something after `Ti'.")
(defconst titan--after-system
  '("out")
  "Names that mean something after `System'.")
(defconst titan--member
  '("contains" "copy" "delete" "domain" "exchange" "max" "min" "restrict" "size" "slice" "translate")
  "Members of domains, grids and regions.")
(defconst titan--name "[A-Za-z$_][A-Za-z0-9$_]*"
  "Pattern of a name or a reserved word.")
(defconst titan--wrong-number "\\_<0[0-9]+[Ll]?"
  "Pattern of digits that are no number.")
(defconst titan--number "\\_<[0-9]+[Ll]?"
  "Pattern of a number.")
(defconst titan--dimension "\\_<[1-3]d\\_>"
  "Pattern of a dimension.")
(defconst titan--stray "[#'?@\\`[:nonascii:]]"
  "Pattern of a character that begins no token.")
(defconst titan--name-signs '(?\$ ?\_)
  "Characters of names that are neither letters nor digits.")
;; tools/editors.py: end

;;; Syntax

(defvar titan-mode-syntax-table
  (let ((table (make-syntax-table)))
    (dolist (sign titan--name-signs)
      (modify-syntax-entry sign "_" table))
    (modify-syntax-entry ?/ ". 124b" table)
    (modify-syntax-entry ?* ". 23" table)
    (modify-syntax-entry ?\n "> b" table)
    (dolist (sign '(?+ ?- ?% ?< ?> ?= ?& ?| ?^ ?~ ?! ?\; ?, ?. ?: ?'))
      (modify-syntax-entry sign "." table))
    table)
  "Syntax table of `titan-mode'.")

(defun titan--end-of-statement ()
  "The position of the next semicolon, or the end of the buffer."
  (save-excursion
    (if (search-forward ";" nil t) (point) (point-max))))

(defvar titan-font-lock-keywords
  (let ((space "[ \t\n\r\f]*"))
    (cl-flet ((words (list) (regexp-opt list 'symbols)))
      `((,(words (append titan--control titan--declaration titan--modifier
                         titan--qualifier titan--operation titan--receiver))
         . font-lock-keyword-face)
        (,(words titan--type) . font-lock-type-face)
        (,(words titan--literal) . font-lock-constant-face)
        (,(words titan--library) . font-lock-builtin-face)
        (,(concat "\\_<Ti" space "\\." space (words titan--after-ti))
         1 font-lock-builtin-face)
        (,(concat "\\_<System" space "\\." space (words titan--after-system))
         1 font-lock-builtin-face)
        (,(concat "\\." space (words titan--member) space "(") 1 font-lock-builtin-face)
        (,(concat "\\_<foreach" space "(" space titan--name space (words titan--after-foreach))
         1 font-lock-keyword-face)
        ;; Behind an operand of a broadcast; the operand itself may have this name.
        ("\\_<broadcast\\_>"
         (,(concat "\\(?:\\(?:\\s_\\|\\sw\\)[ \t\n\r\f]+\\|[])]" space "\\)"
                   (words titan--after-broadcast))
          (titan--end-of-statement) nil (1 font-lock-keyword-face)))
        (,(concat "\\_<class[ \t\n\r\f]+\\(" titan--name "\\)") 1 font-lock-type-face)
        (,(concat "\\_<\\(" titan--name "\\)" space "(") 1 font-lock-function-name-face)
        (,titan--dimension . font-lock-type-face)
        (,titan--wrong-number . font-lock-warning-face)
        (,titan--number . font-lock-constant-face)
        (,titan--stray . font-lock-warning-face))))
  "What `titan-mode' highlights besides strings and comments.")

;;; Indentation

(defun titan--backward-code ()
  "Go back over white space and comments."
  (forward-comment (- (point))))

(defun titan--statement-indentation (position)
  "The indentation of the statement or member that POSITION is in."
  (save-excursion
    (goto-char position)
    (let ((begin position))
      (titan--backward-code)
      (while (not (memq (char-before) '(nil ?\; ?{ ?} ?\( ?\[)))
        (condition-case nil
            (backward-sexp)
          (scan-error (backward-char)))
        (setq begin (point))
        (titan--backward-code))
      (goto-char begin)
      (current-indentation))))

(defun titan--indentation ()
  "The column at which the line of point, which is at its indentation, belongs."
  (let* ((open (nth 1 (syntax-ppss)))
         (outer (if open (titan--statement-indentation open) 0))
         (block (or (null open) (eq (char-after open) ?{))))
    (cond ((memq (char-after) '(?} ?\) ?\])) outer)
          ((not block) (+ outer (* 2 titan-indent-offset)))
          (t
           (+ outer
              (if open titan-indent-offset 0)
              ;; A line goes on with a statement if none ends before it.
              (if (or (eq (char-after) ?{)
                      (save-excursion
                        (titan--backward-code)
                        (memq (char-before) '(nil ?\; ?{ ?}))))
                  0
                titan-indent-offset))))))

(defun titan-indent-line ()
  "Indent the line by the brackets that are open there.
The inside of a comment or string stays as it is."
  (interactive)
  (unless (nth 8 (save-excursion (syntax-ppss (line-beginning-position))))
    (let ((column (save-excursion (back-to-indentation) (titan--indentation))))
      (if (<= (current-column) (current-indentation))
          (indent-line-to column)
        (save-excursion (indent-line-to column))))))

;;; Compilation

(add-to-list 'compilation-error-regexp-alist-alist
             '(titan "^\\(.+\\):\\([1-9][0-9]*\\):\\([1-9][0-9]*\\): [A-Z][0-9]+ " 1 2 3))
(add-to-list 'compilation-error-regexp-alist 'titan)

;;;###autoload
(define-derived-mode titan-mode prog-mode "Titan"
  "Major mode for programs in Titanium's integer core."
  (setq-local comment-start "// ")
  (setq-local comment-end "")
  (setq-local comment-start-skip "\\(?://+\\|/\\*+\\)[ \t]*")
  (setq-local font-lock-defaults '(titan-font-lock-keywords))
  (setq-local font-lock-multiline t)
  (setq-local indent-line-function #'titan-indent-line)
  (setq-local indent-tabs-mode nil)
  (setq-local electric-indent-chars (append "{}()[];" electric-indent-chars))
  (when buffer-file-name
    (setq-local compile-command
                (concat titan-command " --mode check "
                        (shell-quote-argument (file-name-nondirectory buffer-file-name))))))

;;;###autoload
(add-to-list 'auto-mode-alist '("\\.ti\\'" . titan-mode))

(provide 'titan-mode)

;;; titan-mode.el ends here
