;;; emacs.el --- the tests of chip8-mode with eglot  -*- lexical-binding: t -*-

;; `frontends/editors/tests/emacs' starts it. Its last line is 'N passed, M failed'.

;;; Code:

(require 'eglot)
(require 'flymake)
(require 'xref)
(require 'chip8-mode)

(defvar passed 0)
(defvar failed 0)
(defvar game "; A game in few lines.
STEP    EQU 3
START:  LD V0, 5
LOOP:   ADD V0, STEP
        SE V0, 20
        JP LOOP
        EXIT
")

(setq chip8-server (list (getenv "CHIPBENCH_LSP"))
      chip8-settings (list :program (getenv "CHIPBENCH"))
      eglot-send-changes-idle-time 0
      eglot-sync-connect 60
      eglot-autoshutdown t
      flymake-no-changes-timeout 0.1
      create-lockfiles nil
      make-backup-files nil)

(defun same (found wanted)
  (unless (equal found wanted)
    (error "found %S and not %S" found wanted)))

(defmacro wait-for (what condition)
  `(let ((end (+ (float-time) 60)))
     (while (not ,condition)
       (when (> (float-time) end)
         (error "waited in vain: %s" ,what))
       (accept-process-output nil 0.02))))

(defmacro try (name text &rest body)
  "Carry out BODY in a buffer of a file of TEXT, with the server, as a test NAME."
  (declare (indent 2))
  `(let ((file (make-temp-file "chip8-" nil ".ch8asm" ,text)))
     (condition-case fault
         (with-current-buffer (find-file-noselect file)
           (unwind-protect
               (progn
                 (eglot-ensure)
                 ;; in batch no command ends, after which eglot would start
                 (run-hooks 'post-command-hook)
                 (unless (eglot-current-server)
                   (apply #'eglot (eglot--guess-contact)))
                 (wait-for "the server" (eglot-current-server))
                 ,@body
                 (setq passed (1+ passed)))
             (set-buffer-modified-p nil)
             (kill-buffer)))
       (error
        (setq failed (1+ failed))
        (message "emacs, %s: %s" ,name (error-message-string fault))))
     (delete-file file)))

(defun tell ()
  (eglot--signal-textDocument/didChange))

(defun shown ()
  "The lines with a diagnostic, after the server has told them."
  (flymake-start)
  (sort (mapcar (lambda (found) (line-number-at-pos (flymake-diagnostic-beg found)))
                (flymake-diagnostics))
        #'<))

(defun replace-in-line (line from to)
  (goto-char (point-min))
  (forward-line (1- line))
  (search-forward from (line-end-position))
  (replace-match to t t)
  (tell))

(defun go (line column)
  (goto-char (point-min))
  (forward-line (1- line))
  (move-to-column column))

(try "the mode, colours and columns" "  START: LD V0, 5\nCLS\n STEP EQU 3\n; edge\n"
  (same major-mode 'chip8-mode)
  (indent-region (point-min) (point-max))
  (same (buffer-string) "START: LD V0, 5\n        CLS\nSTEP EQU 3\n; edge\n")
  (font-lock-ensure)
  (same (get-text-property 1 'face) 'font-lock-function-name-face)
  (goto-char (point-min))
  (search-forward "LD")
  (same (get-text-property (1- (point)) 'face) 'font-lock-keyword-face)
  (search-forward "ed")
  (same (get-text-property (point) 'face) 'font-lock-comment-face))

(try "diagnostics appear and go" game
  (replace-in-line 4 "STEP" "NONE")
  (wait-for "a fault" (equal (shown) '(4)))
  (replace-in-line 4 "NONE" "STEP")
  (wait-for "no fault" (null (shown))))

(try "characters of two units before an edit" "DA '😀ü' ; 😀\nCLS\n"
  (replace-in-line 1 "ü" "ü', 5")
  (wait-for "a fault" (equal (shown) '(1)))
  (replace-in-line 1 "ü', 5" "x")
  (wait-for "no fault" (null (shown))))

(try "hover" game
  (go 4 17)
  (let ((found (jsonrpc-request (eglot-current-server) :textDocument/hover
                                (eglot--TextDocumentPositionParams))))
    (same (not (string-match-p "\\*\\*STEP\\*\\* = 3" (format "%S" found))) nil)))

(try "definition" game
  (go 6 12)
  (xref-find-definitions "LOOP")
  (same (list (line-number-at-pos) (current-column)) '(4 0)))

(try "rename" game
  (go 6 12)
  (let ((eglot-confirm-server-initiated-edits nil))
    (eglot-rename "AGAIN"))
  (same (buffer-substring (point-min) (point-max))
        (replace-regexp-in-string "LOOP" "AGAIN" game t)))

(try "completion" (concat game "        JP LO")
  (goto-char (point-max))
  (let ((found (eglot-completion-at-point)))
    (same (mapcar #'substring-no-properties (all-completions "LO" (nth 2 found))) '("LOOP"))))

(try "formatting" "A:CLS\nJP A\n"
  (eglot-format-buffer)
  (same (buffer-string) "A:      CLS\n        JP A\n"))

(try "run to here" game
  (go 7 8)
  (chip8-run-to-line)
  (with-current-buffer "*chipbench*"
    (same (not (string-match-p "step 15: pc is at #208" (buffer-string))) nil)))

;; dape isn't in Debian: what it is told is looked at without it
(defvar dape-configs nil)
(let ((load-file-name nil)) (provide 'dape))

(try "debugging: what dape is told" game
  (let ((config (cdr (assq 'chipbench dape-configs))))
    (same (list (plist-get config 'command) (plist-get config :source) (plist-get config :request))
          '("chipbench-dap" dape-buffer-default "launch"))))

;; dap-mode is Debian's elpa-dap-mode: games are debugged by it where it is there
(when (require 'dap-mode nil t)
  (load (expand-file-name "debugger.el" (file-name-directory load-file-name)) nil t))

;; the server that is started next has these settings
(setq chip8-settings (append chip8-settings '(:tape "2a")))

(try "settings" "RND V0, 255\nHERE: JP HERE\n"
  (go 2 6)
  (chip8-run-to-line)
  (with-current-buffer "*chipbench*"
    (same (not (string-match-p "^v 2a" (buffer-string))) nil)))

(try "symbols" game
  (let ((found (jsonrpc-request (eglot-current-server) :textDocument/documentSymbol
                                (list :textDocument (eglot--TextDocumentIdentifier)))))
    (same (length found) 3)))

(princ (format "%d passed, %d failed\n" passed failed))
(kill-emacs (if (zerop failed) 0 1))
