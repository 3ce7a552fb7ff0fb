;;; test.el --- Compare what Emacs highlights with a file of classes  -*- lexical-binding: t; -*-

;;; Commentary:

;; emacs -Q --batch -l editors/emacs/test.el PROGRAM CLASSES
;;
;; CLASSES has a letter for each character of PROGRAM.  Each difference is written to standard
;; output, and so is each line that `titan-mode' would indent otherwise; the exit status is 1
;; where there is one.

;;; Code:

(load (expand-file-name "titan-mode.el" (file-name-directory load-file-name)) nil t)

(defvar titan-test--found nil "The differences.")

(defconst titan-test--faces
  '(("cdmqopr" . font-lock-keyword-face) ("tCD" . font-lock-type-face)
    ("ln" . font-lock-constant-face) ("bf" . font-lock-builtin-face)
    ("M" . font-lock-function-name-face) ("sew" . font-lock-string-face)
    ("k" . font-lock-comment-face) ("!" . font-lock-warning-face) (". " . nil))
  "The face of each class.")

(defun titan-test--face (position)
  "The face at POSITION; that of a comment also for its delimiter."
  (let ((face (get-text-property position 'face)))
    (if (eq face 'font-lock-comment-delimiter-face) 'font-lock-comment-face face)))

(defun titan-test--difference (text)
  "Note the difference TEXT at point."
  (push (format "%d:%d: %s" (line-number-at-pos) (1+ (current-column)) text) titan-test--found))

(defun titan-test--highlighting (classes)
  "Compare the faces of the buffer with CLASSES, its letters."
  (unless (= (length classes) (buffer-size))
    (titan-test--difference "another number of characters"))
  (font-lock-ensure)
  (goto-char (point-min))
  (dolist (class (append classes nil))
    (let ((face (titan-test--face (point)))
          (wanted (cdr (seq-find (lambda (faces) (seq-contains-p (car faces) class))
                                 titan-test--faces))))
      (unless (or (memq (char-after) '(?\s ?\n nil)) (eq face wanted))
        (titan-test--difference (format "%s for %s" face wanted))))
    (unless (eobp)
      (forward-char))))

(defun titan-test--indentation ()
  "Compare the indentation of each line of the buffer with what `titan-mode' would do."
  (goto-char (point-min))
  (while (not (eobp))
    (back-to-indentation)
    (let ((column (current-column)))
      (unless (or (eolp) (nth 8 (syntax-ppss)))
        (titan-indent-line)
        (unless (= (current-indentation) column)
          (titan-test--difference (format "indented here, from column %d" (1+ column)))
          (indent-line-to column))))
    (forward-line)))

(defun titan-test--compilation ()
  "Look whether the message of a refused program is an error of `compile'."
  (with-temp-buffer
    (insert "dir/a.ti:3:7: S1 an if with global effects needs a single condition\n")
    (compilation-mode)
    (let ((compilation-error-regexp-alist '(titan)) (inhibit-read-only t))
      (compilation-parse-errors (point-min) (point-max)))
    (let* ((message (get-text-property (point-min) 'compilation-message))
           (place (and message (compilation--message->loc message))))
      (unless (and place (equal (compilation--loc->line place) 3))
        (titan-test--difference "no error of compile")))))

(let ((program (pop command-line-args-left))
      (classes (expand-file-name (pop command-line-args-left))))
  (find-file program)
  (unless (eq major-mode 'titan-mode)
    (titan-test--difference "not in titan-mode"))
  (titan-test--highlighting (with-temp-buffer (insert-file-contents classes) (buffer-string)))
  (titan-test--indentation)
  (titan-test--compilation))

(dolist (text (reverse titan-test--found))
  (princ (concat text "\n")))
(kill-emacs (if titan-test--found 1 0))

;;; test.el ends here
