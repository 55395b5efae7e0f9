;;; kdf9.el --- Decks of Usercode and jobs of kdf9  -*- lexical-binding: t; -*-

;; Package-Requires: ((emacs "26.1"))

;;; Commentary:

;; `usercode-mode' is for a deck, and `kdf9-job-mode' for a job with its decks.  `compile' shows the faults, and `next-error' goes to them.
;; With Eglot, `eglot' starts the language server.

;;; Code:

(require 'compile)
(eval-and-compile
  (defconst kdf9-folder
    (file-name-directory (or load-file-name (bound-and-true-p byte-compile-current-file) buffer-file-name))
    "The folder of this file and of `kdf9-tables'."))
(require 'kdf9-tables (expand-file-name "kdf9-tables" kdf9-folder))

(defgroup kdf9 nil "Decks of Usercode and jobs of kdf9." :group 'languages)

(defcustom kdf9-command
  (let ((here (expand-file-name "../../kdf9" kdf9-folder)))
    (if (file-executable-p here) here "kdf9"))
  "The command that checks and serves decks and jobs."
  :type 'string :group 'kdf9)

(defun kdf9--statement (pattern limit)
  "Go to the next statement of PATTERN before LIMIT, and past it.
The first group of the match is the statement."
  (let ((whole (concat "\\(" pattern "\\) *\\(?:[;(]\\|$\\)")) found)
    (while (and (not found) (progn (skip-chars-forward " ;)\n" limit) (< (point) limit)))
      (let ((comment (nth 4 (syntax-ppss))))
        (cond
         ((or comment (eq (char-after) ?\()) (forward-char) (skip-chars-forward "^)" limit))
         ((looking-at whole) (setq found t) (goto-char (match-end 1)))
         (t (skip-chars-forward "^;(\n" limit)))))
    found))

(defun kdf9--statement-keyword (row)
  "What font-lock is told of a ROW of `kdf9-statements'."
  (let ((pattern (car row)))
    (list (lambda (limit) (kdf9--statement pattern limit)) 1 (cdr row))))

(defvar kdf9-statement-keywords (mapcar #'kdf9--statement-keyword kdf9-statements)
  "How font-lock shows statements.")

(defvar kdf9-syntax-table
  (let ((table (make-syntax-table)))
    (modify-syntax-entry ?\( "<" table)
    (modify-syntax-entry ?\) ">" table)
    (modify-syntax-entry ?\" "." table)
    (modify-syntax-entry ?\n " " table)
    table)
  "A comment runs from a parenthesis to the next that closes.")

(defun kdf9--complete ()
  "Completes the name of a statement at point."
  (let ((start (save-excursion (skip-chars-backward "^;() \n") (point))))
    (list start (point) kdf9-names :exclusive 'no)))

(defun kdf9--setup (arguments)
  "Set up a buffer whose faults the command shows with ARGUMENTS."
  (setq-local comment-start "(" comment-end ")" comment-start-skip "( *" indent-tabs-mode nil case-fold-search nil)
  (setq-local compile-command (concat (shell-quote-argument kdf9-command) arguments (if buffer-file-name (shell-quote-argument (file-name-nondirectory buffer-file-name)) "-")))
  (add-hook 'completion-at-point-functions #'kdf9--complete nil t))

;;;###autoload
(define-derived-mode usercode-mode prog-mode "Usercode"
  "A deck of Usercode."
  :syntax-table kdf9-syntax-table
  (setq-local font-lock-defaults '(kdf9-statement-keywords nil nil))
  (kdf9--setup " lsp --faults "))

(defun kdf9--propertize (start end)
  "Give parentheses outside the decks of a job, from START to END, no meaning."
  (goto-char start)
  (forward-line 0)
  (while (< (point) end)
    (unless (kdf9--deck-at (point))
      (put-text-property (point) (min (point-max) (line-end-position)) 'syntax-table '(1)))
    (forward-line 1)))

(defun kdf9--deck-at (place)
  "Whether the line at PLACE is in a deck."
  (save-excursion
    (goto-char place)
    (save-match-data
      (and (re-search-backward "^\\(?:END\\)?DECK$" nil t) (looking-at "DECK$")))))

(defun kdf9--in-job (matcher in-deck)
  "A matcher as MATCHER, but only in decks; or, without IN-DECK, outside of them."
  (lambda (limit)
    (let (found)
      (while (and (not found) (< (point) limit) (funcall matcher limit))
        (setq found (eq in-deck (and (kdf9--deck-at (match-beginning 0)) t))))
      found)))

(defun kdf9--line-keyword (row)
  "What font-lock is told of a ROW of `kdf9-lines'."
  (let ((pattern (concat "^\\(" (car row) "\\)$")))
    (list (kdf9--in-job (lambda (limit) (re-search-forward pattern limit t)) nil) 1 (cdr row))))

(defvar kdf9-job-keywords
  (append
   (list (list (concat "\\`" kdf9-header "$") 0 'font-lock-preprocessor-face) (list "^\\(?:END\\)?DECK$" 0 'font-lock-preprocessor-face))
   (mapcar #'kdf9--line-keyword kdf9-lines)
   (mapcar (lambda (row) (list (kdf9--in-job (lambda (limit) (kdf9--statement (car row) limit)) t) 1 (cdr row))) kdf9-statements))
  "How font-lock shows a job.")

;;;###autoload
(define-derived-mode kdf9-job-mode prog-mode "KDF9 job"
  "A job of kdf9 with its decks."
  :syntax-table kdf9-syntax-table
  (setq-local syntax-propertize-function #'kdf9--propertize)
  (setq-local font-lock-defaults '(kdf9-job-keywords nil nil))
  (kdf9--setup " explain "))

(add-to-list 'compilation-error-regexp-alist-alist '(kdf9 "^\\([^:\n]+\\):\\([0-9]+\\):\\([0-9]+\\): [A-Z]" 1 2 3))
(add-to-list 'compilation-error-regexp-alist 'kdf9)

;;;###autoload
(add-to-list 'auto-mode-alist '("\\.\\(?:usercode\\|deck\\)\\'" . usercode-mode))
;;;###autoload
(add-to-list 'magic-mode-alist (cons (concat "\\`" kdf9-header "$") 'kdf9-job-mode))

(with-eval-after-load 'eglot
  (defvar eglot-server-programs)
  (add-to-list 'eglot-server-programs (cons '(usercode-mode kdf9-job-mode) (list kdf9-command "lsp"))))

(provide 'kdf9)
;;; kdf9.el ends here
