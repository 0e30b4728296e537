;;; talc.el --- Modes for System F and typed assembly language  -*- lexical-binding: t -*-

;;; Commentary:

;; Colours and comments, and the language server by eglot, which Emacs has from 29 on.  In init.el:
;;
;;   (load "…/editors/emacs/talc.el")
;;   (add-hook 'talc-mode-hook #'eglot-ensure)
;;   (add-hook 'talc-tal-mode-hook #'eglot-ensure)
;;
;; Names that end with .tal are assembly; a source, since Emacs takes .f for Fortran, where it lies in a folder
;; examples or talc, and elsewhere by M-x talc-mode.

;;; Code:

(defvar talc-server "talc-lsp" "The language server, by its path or its name.")

(defvar talc-syntax
  (let ((table (make-syntax-table)))
    (modify-syntax-entry ?- ". 12" table)
    (modify-syntax-entry ?\n ">" table)
    (modify-syntax-entry ?_ "w" table)
    table)
  "The syntax of both languages: comments from -- to the end of a line.")

(defconst talc-words '("fix" "gen" "let" "in" "pack" "open" "as" "if0" "ref"))
(defconst talc-types '("all" "some" "int"))
(defconst talc-tal-words
  '("tal" "code" "data" "as" "pack" "unpack" "add" "sub" "mul" "bnz" "ld" "st" "mov" "malloc" "jmp" "halt"))

;;;###autoload
(define-derived-mode talc-mode prog-mode "talc"
  "A mode for the source language of talc."
  :syntax-table talc-syntax
  (setq-local comment-start "-- " comment-start-skip "--[ \t]*"
              font-lock-defaults
              `(((,(regexp-opt talc-words 'words) . font-lock-keyword-face)
                 (,(regexp-opt talc-types 'words) . font-lock-type-face)
                 ("\\_<\\(?:let\\|fix\\)[ \t\n]+\\(\\w+\\)" 1 font-lock-function-name-face)))))

;;;###autoload
(define-derived-mode talc-tal-mode prog-mode "tal"
  "A mode for typed assembly language."
  :syntax-table talc-syntax
  (setq-local comment-start "-- " comment-start-skip "--[ \t]*"
              font-lock-defaults
              `(((,(regexp-opt talc-tal-words 'words) . font-lock-keyword-face)
                 (,(regexp-opt talc-types 'words) . font-lock-type-face)
                 ("\\_<r[0-9]+\\_>" . font-lock-variable-name-face)
                 ("\\_<\\(\\w+\\)[ \t\n]*:[ \t\n]*\\(?:code\\|data\\)\\_>" 1 font-lock-function-name-face)))))

;;;###autoload
(add-to-list 'auto-mode-alist '("\\.tal\\'" . talc-tal-mode))
;;;###autoload
(add-to-list 'auto-mode-alist '("/\\(?:examples\\|talc\\)/\\(?:.*/\\)?[^/]*\\.f\\'" . talc-mode))

(defvar eglot-server-programs)
(with-eval-after-load 'eglot
  (add-to-list 'eglot-server-programs `((talc-mode talc-tal-mode) . (,talc-server))))

(provide 'talc)
;;; talc.el ends here
