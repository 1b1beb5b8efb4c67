;;; chip8-mode.el --- CHIP-8 and SUPER-CHIP sources  -*- lexical-binding: t -*-

;; Package-Requires: ((emacs "28.1"))
;; Keywords: languages

;;; Commentary:

;; A mode for sources of chipbench: colours, columns, the language server by eglot, and the debug adapter by dape or
;; dap-mode.
;;
;;     (add-to-list 'load-path "FOLDER/editors/emacs")
;;     (require 'chip8-mode)
;;     (add-hook 'chip8-mode-hook #'eglot-ensure)
;;
;; Files *.ch8asm have the mode; for an *.asm say M-x chip8-mode, or -*- mode: chip8 -*- in its
;; first line after a `;'.  `chip8-run-to-line' (C-c C-r) shows the machine at the first step on
;; the line of the cursor.

;;; Code:

(require 'chip8-words)

(declare-function eglot-current-server "eglot")
(declare-function eglot--signal-textDocument/didChange "eglot")
(declare-function jsonrpc-request "jsonrpc")
(defvar eglot-server-programs)

(defgroup chip8 nil
  "CHIP-8 sources."
  :group 'languages)

(defcustom chip8-server '("chipbench-lsp")
  "The language server and its arguments."
  :type '(repeat string))

(defcustom chip8-settings nil
  "Settings of the language server.
A property list of :profile, :rate, :tape, :seed, :every, :program."
  :type 'plist)

(defconst chip8-statement-column 8)
(defconst chip8-comment-column 28)

(defvar chip8-mode-syntax-table
  (let ((table (make-syntax-table)))
    (modify-syntax-entry ?\; "<" table)
    (modify-syntax-entry ?\n ">" table)
    (modify-syntax-entry ?_ "w" table)
    (modify-syntax-entry ?\\ "." table)
    (modify-syntax-entry ?' "\"" table)
    table))

(defvar chip8-font-lock-keywords
  (let ((words (lambda (texts) (concat "\\_<" (regexp-opt texts) "\\_>"))))
    `(("^[ \t]*\\([A-Za-z_][A-Za-z0-9_]*\\)[ \t]*:" 1 font-lock-function-name-face)
      ("^[ \t]*\\([A-Za-z_][A-Za-z0-9_]*\\)[ \t]*\\(?:=\\|EQU\\_>\\)" 1 font-lock-variable-name-face)
      (,(funcall words chip8-mnemonics) . font-lock-keyword-face)
      (,(funcall words chip8-directives) . font-lock-preprocessor-face)
      (,(funcall words chip8-switches) . font-lock-constant-face)
      ("\\_<V[0-9A-F]\\_>" . font-lock-builtin-face)
      (,(funcall words chip8-parts) . font-lock-builtin-face)
      ("#[0-9A-F]+\\|@[0-7]+\\|\\$[01.]+\\|\\_<[0-9]+\\_>" . font-lock-constant-face)
      ;; properties, which other assemblers take for comments
      ("^[ \t]*;!.*$" 0 font-lock-doc-face t)
      ("\\_<\\(?:always\\|never\\|ever\\|can\\|here\\|at\\|and\\|or\\)\\_>"
       (0 (when (save-excursion (beginning-of-line) (looking-at "[ \t]*;!")) 'font-lock-keyword-face) t)))))

(defun chip8-indent-line ()
  "Put a label or a definition at the edge, and a statement in its column."
  (interactive)
  (let* ((case-fold-search t)
         (column (save-excursion
                   (back-to-indentation)
                   (cond ((looking-at "[A-Za-z_][A-Za-z0-9_]*[ \t]*\\(?::\\|=\\|EQU\\_>\\)") 0)
                         ((looking-at ";") (current-column))
                         (t chip8-statement-column)))))
    (if (<= (current-column) (current-indentation))
        (indent-line-to column)
      (save-excursion (indent-line-to column)))))

;;;###autoload
(define-derived-mode chip8-mode prog-mode "CHIP-8"
  "A mode for CHIP-8 and SUPER-CHIP sources."
  (setq-local comment-start "; ")
  (setq-local comment-start-skip ";+[ \t]*")
  (setq-local comment-column chip8-comment-column)
  (setq-local indent-tabs-mode nil)
  (setq-local tab-width chip8-statement-column)
  (setq-local indent-line-function #'chip8-indent-line)
  (setq-local font-lock-defaults '(chip8-font-lock-keywords nil t)))

(define-key chip8-mode-map (kbd "C-c C-r") #'chip8-run-to-line)

;;;###autoload
(add-to-list 'auto-mode-alist '("\\.ch8asm\\'" . chip8-mode))

;; The debug adapter

(defcustom chip8-debugger "chipbench-dap"
  "The debug adapter, as dape and dap-mode start it."
  :type 'string)

(defcustom chip8-debugger-settings nil
  "Arguments of a launch besides the file, such as (:seed 7 :keys \"game.keys\").
docs/DEBUGGER.md has them all."
  :type 'plist)

(defvar dape-configs)

(with-eval-after-load 'dape
  (add-to-list 'dape-configs
               `(chipbench modes (chip8-mode) command ,chip8-debugger command-cwd dape-command-cwd
                           :type "chipbench" :request "launch" :source dape-buffer-default :cwd dape-cwd
                           ,@chip8-debugger-settings)))

(declare-function dap-register-debug-provider "dap-mode")
(declare-function dap-register-debug-template "dap-mode")

(defun chip8-debug-arguments (launch)
  "LAUNCH with what dap-mode needs to start it: the adapter, and the file that is shown."
  (append (list :dap-server-path (list chip8-debugger)
                :source (or (plist-get launch :source) (buffer-file-name)))
          launch chip8-debugger-settings))

(with-eval-after-load 'dap-mode
  (dap-register-debug-provider "chipbench" #'chip8-debug-arguments)
  (dap-register-debug-template
   "CHIP-8: debug this file" (list :type "chipbench" :request "launch" :name "Debug this file")))

(declare-function dap--cur-session-or-die "dap-mode")
(declare-function dap--make-request "dap-mode")
(declare-function dap--resp-handler "dap-mode")
(declare-function dap--send-message "dap-mode")
(declare-function dap--step "dap-mode")

(defun chip8-debug-back ()
  "Make one step back in the game that dap-mode debugs."
  (interactive)
  (dap--step "stepBack" (dap--cur-session-or-die)))

(defun chip8-debug-reverse ()
  "Go back to the last breakpoint in the game that dap-mode debugs."
  (interactive)
  (dap--step "reverseContinue" (dap--cur-session-or-die)))

(defun chip8-debug-watch (subject)
  "Have the game that dap-mode debugs stop where SUBJECT changes.
SUBJECT is a register, a byte such as [SCORE], or what else
docs/DEBUGGER.md has.  Without one it stops for no change."
  (interactive "sStop where this changes (empty for nothing): ")
  (dap--send-message
   (dap--make-request "setDataBreakpoints"
                      (list :breakpoints (if (equal subject "") [] (vector (list :dataId subject)))))
   (dap--resp-handler
    (lambda (answer)
      (dolist (point (gethash "breakpoints" (gethash "body" answer)))
        (unless (gethash "verified" point)
          (error "%s" (gethash "message" point))))))
   (dap--cur-session-or-die)))

;; The language server

(defun chip8-contact (&optional _interactive)
  "The language server, as eglot takes it."
  `(,@chip8-server :initializationOptions (:showsRuns t ,@chip8-settings)))

(with-eval-after-load 'eglot
  (add-to-list 'eglot-server-programs '(chip8-mode . chip8-contact)))

(defun chip8-run-to-line ()
  "Show the machine at the first step at which pc is on the line of the cursor."
  (interactive)
  (let ((server (eglot-current-server))
        (line (1- (line-number-at-pos nil t))))
    (unless server
      (user-error "The language server isn't running here (M-x eglot)"))
    (eglot--signal-textDocument/didChange)
    (let ((found (jsonrpc-request server :workspace/executeCommand
                                  (list :command "chipbench.runTo"
                                        :arguments (vector (chip8-document-uri) line)))))
      (with-current-buffer (get-buffer-create "*chipbench*")
        (let ((inhibit-read-only t))
          (erase-buffer)
          (insert (plist-get found :text))
          (goto-char (point-min)))
        (special-mode)
        (display-buffer (current-buffer))))))

(defun chip8-document-uri ()
  "The name of the document, as eglot names it to the server."
  (plist-get (eglot--TextDocumentIdentifier) :uri))

(declare-function eglot--TextDocumentIdentifier "eglot")

(provide 'chip8-mode)
;;; chip8-mode.el ends here
