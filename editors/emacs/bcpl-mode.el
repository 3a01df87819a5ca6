;;; bcpl-mode.el --- Major mode for BCPL with words of 16 bits -*- lexical-binding: t -*-

;; Package-Requires: ((emacs "25.1"))
;; Version: 1.0
;; Keywords: languages

;;; Commentary:

;; Font lock, indentation, comments, an index of routines and `compile' for BCPL sources.  To use it, put this file into a
;; folder of `load-path' and (require 'bcpl-mode) into your init file.

;;; Code:

(require 'compile)
(require 'seq)
(require 'subr-x)

(defgroup bcpl nil "BCPL." :group 'languages)

(defcustom bcpl-program "bcpl" "The program that builds BCPL sources." :type 'string :group 'bcpl)

(defcustom bcpl-include nil
  "The folders in which GET finds files, after that of the source.
A relative name counts from the folder of the file .dir-locals.el, or from that of the source if there is none."
  :type '(repeat string) :group 'bcpl :safe (lambda (value) (and (listp value) (seq-every-p #'stringp value))))

(defun bcpl-include-arguments ()
  "The arguments that name the folders of `bcpl-include'."
  (let ((base (or (locate-dominating-file default-directory dir-locals-file) default-directory)))
    (seq-mapcat (lambda (folder) (list "--include" (expand-file-name folder base))) bcpl-include)))

(defun bcpl-set-compile-command ()
  "Sets `compile-command' to build this buffer's file."
  (when buffer-file-name
    (let ((name (file-name-nondirectory buffer-file-name)))
      (setq-local compile-command
                  (mapconcat #'shell-quote-argument
                             `(,bcpl-program "build" "--places" "always" ,@(bcpl-include-arguments)
                                             "--out" ,(concat (file-name-sans-extension name) ".int") ,name)
                             " ")))))

(defun bcpl-is-header ()
  "Whether this buffer's file has no extension, and the text of a header."
  (and buffer-file-name
       (not (file-name-extension buffer-file-name))
       (let ((case-fold-search nil))
         (re-search-forward "^[ \t]*\\(?:GET[ \t]*\"\\|\\(?:GLOBAL\\|MANIFEST\\|STATIC\\)[ \t]*\\(?:$\\|\\$(\\)\\)" nil t))))

(defun bcpl-match-name (kind)
  "A matcher for the names of which the function KIND is true.  A name takes all its letters, digits and dots."
  (lambda (limit)
    (let (found (case-fold-search nil))
      (while (and (not found) (re-search-forward "[A-Za-z][A-Za-z0-9.]*" limit t))
        (setq found (save-match-data (funcall kind (match-string-no-properties 0)))))
      found)))

(defconst bcpl-declarations '("GET" "LET" "AND" "MANIFEST" "STATIC" "GLOBAL" "BE" "VALOF" "VEC" "TABLE"))
(defconst bcpl-keywords
  '("IF" "UNLESS" "TEST" "THEN" "ELSE" "OR" "DO" "SWITCHON" "INTO" "CASE" "DEFAULT" "FOR" "TO" "BY" "WHILE" "UNTIL" "REPEAT"
    "REPEATWHILE" "REPEATUNTIL" "BREAK" "LOOP" "ENDCASE" "RETURN" "FINISH" "RESULTIS" "GOTO"))
(defconst bcpl-operators '("EQ" "NE" "LS" "LE" "GR" "GE" "LSHIFT" "RSHIFT" "LOGAND" "LOGOR" "NOT" "EQV" "NEQV" "REM"))
(defconst bcpl-constants '("TRUE" "FALSE"))

(defun bcpl-is-routine (name)
  "Whether NAME, before point, is called or declared as a routine."
  (and (not (member name (append bcpl-declarations bcpl-keywords bcpl-operators bcpl-constants)))
       (looking-at-p "[ \t]*(")))

(defconst bcpl-font-lock-keywords
  `((,(bcpl-match-name (lambda (name) (member name bcpl-declarations))) 0 font-lock-type-face)
    (,(bcpl-match-name (lambda (name) (member name bcpl-keywords))) 0 font-lock-keyword-face)
    (,(bcpl-match-name (lambda (name) (member name bcpl-operators))) 0 font-lock-builtin-face)
    (,(bcpl-match-name (lambda (name) (member name bcpl-constants))) 0 font-lock-constant-face)
    (,(bcpl-match-name #'bcpl-is-routine) 0 font-lock-function-name-face)))

(defconst bcpl-syntax-propertize
  (syntax-propertize-rules
   ;; Comments to the end of the line, of both spellings; then block comments.
   ("\\(/\\)/\\|\\(|\\)|"
    (0 (let ((at (match-beginning 0)))
         (unless (nth 8 (save-excursion (syntax-ppss at)))
           (put-text-property at (1+ at) 'syntax-table (string-to-syntax "< b"))
           (let ((end (line-end-position)))
             (when (< end (point-max))
               (put-text-property end (1+ end) 'syntax-table (string-to-syntax "> b")))
             (goto-char end))
           nil))))
   ("\\(/\\)\\(\\*\\)"
    (0 (let ((at (match-beginning 0)))
         (unless (nth 8 (save-excursion (syntax-ppss at)))
           (put-text-property at (1+ at) 'syntax-table (string-to-syntax "!"))
           (if (search-forward "*/" nil t)
               (put-text-property (1- (point)) (point) 'syntax-table (string-to-syntax "!"))
             (goto-char (point-max))))
         nil)))
   ;; A string or a character constant, with its escapes: between string fences, so that nothing in it counts.
   ("\"\\(?:\\*.\\|[^*\"\n]\\)*\"\\|'\\(?:\\*.\\|[^*'\n]\\)'"
    (0 (unless (nth 8 (save-excursion (syntax-ppss (match-beginning 0))))
         (put-text-property (match-beginning 0) (1+ (match-beginning 0)) 'syntax-table (string-to-syntax "|"))
         (put-text-property (1- (match-end 0)) (match-end 0) 'syntax-table (string-to-syntax "|"))
         nil))))
  "Comments and strings of BCPL.  * begins an escape, and a comment may begin with two bars.")

(defvar bcpl-mode-syntax-table
  (let ((table (make-syntax-table)))
    (modify-syntax-entry ?. "_" table)
    (modify-syntax-entry ?\" "." table)
    (modify-syntax-entry ?' "." table)
    (modify-syntax-entry ?\\ "." table)
    (modify-syntax-entry ?/ "." table)
    (modify-syntax-entry ?* "." table)
    (modify-syntax-entry ?| "." table)
    (modify-syntax-entry ?$ "." table)
    (modify-syntax-entry ?% "." table)
    (modify-syntax-entry ?_ "." table)
    table)
  "Syntax table of `bcpl-mode'.")

(defun bcpl-in-text ()
  "Whether point is in a comment or a string."
  (nth 8 (syntax-ppss)))

(defun bcpl-opening ()
  "The position of the section bracket around point, or nil."
  (save-excursion
    (let ((depth 1))
      (while (and (> depth 0) (re-search-backward "\\$[()]" nil t))
        (unless (bcpl-in-text)
          (setq depth (+ depth (if (eq (char-after (1+ (point))) ?\() -1 1)))))
      (and (= depth 0) (point)))))

(defun bcpl-previous-code ()
  "Goes to the beginning of the line before this one that has code.  Whether there is one."
  (let (found)
    (while (and (not found) (= 0 (forward-line -1)))
      (back-to-indentation)
      (setq found (not (or (eolp) (looking-at-p "//\\|||\\|/\\*") (nth 4 (syntax-ppss))))))
    found))

(defun bcpl-code-of-line ()
  "The text of this line without a comment at its end."
  (save-excursion
    (let ((end (line-end-position)))
      (end-of-line)
      (let ((state (syntax-ppss)))
        (when (nth 4 state) (setq end (nth 8 state))))
      (string-trim-right (buffer-substring-no-properties (line-beginning-position) end)))))

(defun bcpl-column ()
  "The column to which the line at point should be indented."
  (save-excursion
    (back-to-indentation)
    (let* ((case-fold-search nil)
           (here (point))
           (now (current-column))
           (opening (bcpl-opening))
           (base (if opening (save-excursion (goto-char opening) (+ 3 (current-column))) 0)))
      (when (and opening (save-excursion (goto-char opening) (looking-at-p "\\$([A-Za-z0-9.]*[ \t]*$")))
        (setq base (save-excursion (goto-char opening) (+ 3 (current-indentation)))))
      (cond
       ((looking-at-p "\\$)") (- base 3))
       ((looking-at-p "[A-Za-z][A-Za-z0-9.]*:[ \t]*$") (if (looking-at-p "DEFAULT:") base 0))
       ((looking-at-p "\\(?:AND\\|STATIC\\|GLOBAL\\|MANIFEST\\|GET\\)\\_>") base)
       ((and (not opening) (looking-at-p "LET\\_>")) 0)
       ((looking-at-p "\\(?:THEN\\|ELSE\\|OR\\)\\_>")
        (catch 'found
          (while (bcpl-previous-code)
            (when (and opening (< (point) opening)) (throw 'found base))
            (when (and (equal (bcpl-opening) opening) (looking-at-p "\\(?:TEST\\|THEN\\|ELSE\\|OR\\|IF\\)\\_>"))
              (throw 'found (current-column))))
          base))
       ((not (bcpl-previous-code)) base)
       (t
        (let* ((code (bcpl-code-of-line))
               (begin (if (and opening (= (line-number-at-pos) (line-number-at-pos opening)))
                          (progn (goto-char (line-beginning-position))
                                 (looking-at "[ \t]*\\(?:\\$([A-Za-z0-9.]* *\\)*")
                                 (- (match-end 0) (match-beginning 0)))
                        (current-indentation)))
               (is-block (save-excursion (goto-char here) (looking-at-p "\\$("))))
          (cond
           ((or (string-match-p "\\(?:\\_<\\(?:BE\\|VALOF\\|DO\\|THEN\\|ELSE\\|OR\\|INTO\\)\\|[-+*/=&|,<>]\\)\\'" code)
                (and is-block (string-match-p "\\_<CASE\\_>.*:\\'" code)))
            (cond (is-block begin)
                  ((and (string-match-p "[-+*/=&|,<>]\\'" code) (not (string-match-p ") =\\'" code)) (> now base)) now)
                  (t (+ begin 2))))
           ((string-match-p "\\_<\\(?:CASE\\_>.*\\|DEFAULT\\):\\'" code) (+ base 2))
           ((and (= begin (+ base 2)) (not (save-excursion (goto-char here) (looking-at-p "CASE\\_>\\|DEFAULT\\_>")))
                 (bcpl-in-case base opening))
            (+ base 2))
           (t base))))))))

(defun bcpl-in-case (base opening)
  "Whether the lines further in than BASE, up from here to OPENING, end at a CASE without a command."
  (save-excursion
    (let ((is-there t))
      (while (and is-there (> (current-indentation) base) (> (point) (or opening 0)))
        (setq is-there (bcpl-previous-code)))
      (and is-there (string-match-p "\\_<\\(?:CASE\\_>.*\\|DEFAULT\\):\\'" (bcpl-code-of-line))))))

(defun bcpl-indent-line ()
  "Indents the line at point."
  (interactive)
  (let ((column (bcpl-column)) (from-end (- (point-max) (point))))
    (unless (save-excursion (back-to-indentation) (bcpl-in-text))
      (indent-line-to (max 0 column))
      (when (> (- (point-max) from-end) (point))
        (goto-char (- (point-max) from-end))))))

(defconst bcpl-index
  '((nil "^[ \t]*\\(?:LET\\|AND\\)[ \t]+\\([A-Za-z][A-Za-z0-9.]*\\)[ \t]*(" 1)))

(add-to-list 'compilation-error-regexp-alist-alist
             '(bcpl "^\\([^:\n ]+\\):\\([0-9]+\\):\\([0-9]+\\): \\(warning: \\)?" 1 2 3 (4)))
(add-to-list 'compilation-error-regexp-alist 'bcpl)

;;;###autoload
(define-derived-mode bcpl-mode prog-mode "BCPL"
  "Major mode for BCPL sources."
  (setq-local font-lock-defaults '(bcpl-font-lock-keywords nil nil nil))
  (setq-local syntax-propertize-function bcpl-syntax-propertize)
  (setq-local comment-start "// ")
  (setq-local comment-end "")
  (setq-local comment-start-skip "\\(?://+\\|||\\|/\\*\\)[ \t]*")
  (setq-local indent-line-function #'bcpl-indent-line)
  (setq-local indent-tabs-mode nil)
  (setq-local imenu-generic-expression bcpl-index)
  (bcpl-set-compile-command)
  ;; `bcpl-include' may be set for the folder or in the file.
  (add-hook 'hack-local-variables-hook #'bcpl-set-compile-command nil t))

;;;###autoload
(add-to-list 'auto-mode-alist '("\\.bcpl\\'" . bcpl-mode))
(add-to-list 'magic-fallback-mode-alist '(bcpl-is-header . bcpl-mode))

;; Eglot starts the language server by M-x eglot.
(defvar eglot-server-programs)
(with-eval-after-load 'eglot
  (add-to-list 'eglot-server-programs
               (cons 'bcpl-mode (lambda (&rest _) `(,bcpl-program "lsp" ,@(bcpl-include-arguments))))))

(provide 'bcpl-mode)
;;; bcpl-mode.el ends here
