;;; debugger.el --- the tasks of docs/SHELL.md by dap-mode  -*- lexical-binding: t -*-

;; emacs.el loads it where dap-mode is there, which is Debian's elpa-dap-mode.  Each task is done by commands of dap-mode
;; and of chip8-mode, and by what is typed into the console.  Step 22 + 8 (N - 1) is the one at which HIT is next for
;; the Nth time.

;;; Code:

(require 'dap-mode)
(require 'dap-ui)

(defvar score "; Key 4 scores. The score is in V3, and in the byte SCORE.
        LD V4, 4
        LD I, SCORE
LOOP:   SKNP V4
        CALL HIT
        SE V3, 9
        JP LOOP
        JP SCORE
HIT:    ADD V3, 1
        LD V0, V3
        LD [I], V0
        RET
SCORE:  DB 0, 0
")

(defun frame-shown ()
  "The subroutine and the line that the debugger shows."
  (let* ((session (dap--cur-session))
         (frame (and session (dap--debug-session-active-frame session))))
    (and frame (list (gethash "name" frame) (gethash "line" frame)))))

(defmacro moves-to (wanted &rest body)
  "Carry out BODY, after which the debugger shows the frame WANTED."
  `(progn ,@body (wait-for (format "the frame %S, in place of %S" ,wanted (frame-shown)) (equal (frame-shown) ,wanted))))

(defun typed (text)
  "The answer to TEXT in the console of dap-mode."
  (save-window-excursion
    (dap-ui-repl)
    (with-current-buffer dap-ui--repl-buffer
      (goto-char (point-max))
      (insert text)
      (let ((start (1+ (point))))
        (comint-send-input)
        (wait-for (format "an answer to %s" text)
                  (string-suffix-p (concat "\n" dap-ui-repl-prompt) (buffer-substring-no-properties start (point-max))))
        (string-remove-suffix (concat "\n" dap-ui-repl-prompt) (buffer-substring-no-properties start (point-max)))))))

(defun step-shown ()
  (car (split-string (typed "STEP"))))

(defun contains (text part)
  (unless (string-search part text)
    (error "%S isn't in %S" part text)))

(defun break-at (line &optional condition)
  "Set a breakpoint as a user does, and tell the adapter, which runs already."
  (go line 0)
  (dap-breakpoint-add)
  (when condition
    (cl-letf (((symbol-function 'read-string) (lambda (&rest _) condition)))
      (dap-breakpoint-condition buffer-file-name (dap--get-breakpoint-at-point)))))

(defmacro debugging (name &rest body)
  "Carry out BODY where a game is debugged, at its start."
  (declare (indent 1))
  `(try (concat "debugging: " ,name) score
     (let ((keys (make-temp-file "four-" nil ".keys" "20 4 down\n"))
           (file buffer-file-name))
       (dap-breakpoint-delete-all)
       (moves-to '("the program" 2)
         (dap-debug (list :type "chipbench" :request "launch" :name "try" :keys keys :chipbench (getenv "CHIPBENCH"))))
       (let ((adapter (dap--debug-session-proc (dap--cur-session))))
         (unwind-protect
             (with-current-buffer (find-file-noselect file) ,@body)
           (dap-breakpoint-delete-all)
           (dap-disconnect (dap--cur-session))
           (wait-for "the end of the adapter" (not (process-live-p adapter)))
           (delete-file keys))))))

(defun continue-on ()
  (dap-continue (dap--cur-session) 1))

(setq dap-breakpoints-file (make-temp-file "dap-")
      dap-auto-configure-features nil
      chip8-debugger (getenv "CHIPBENCH_DAP"))

(debugging "stop where V3 becomes 5"
  (contains (typed "find V3 = 5") "step 55")
  (moves-to '("HIT" 10) (typed "goto 55"))
  (typed "goto 0")
  (chip8-debug-watch "V3")
  (moves-to '("HIT" 10) (continue-on))
  (same (step-shown) "23"))

(debugging "stop at a line, but only under a condition"
  (break-at 9 "V3 = 2")
  (moves-to '("HIT" 9) (continue-on))
  (same (step-shown) "38"))

(debugging "go on until a byte changes"
  (chip8-debug-watch "[SCORE]")
  (moves-to '("HIT" 12) (continue-on))
  (same (step-shown) "25"))

(debugging "who wrote this byte"
  (moves-to '("the program" 13) (continue-on))
  (contains (typed "who [SCORE]") "[SCORE] 08 -> 09 by step 88, 0212, line 11")
  (chip8-debug-watch "[SCORE]")
  (moves-to '("HIT" 11) (chip8-debug-reverse))
  (same (step-shown) "88"))

(debugging "back to before the crash"
  (moves-to '("the program" 13) (continue-on))
  (moves-to '("the program" 13) (chip8-debug-back))
  (moves-to '("the program" 8) (chip8-debug-back))
  (same (step-shown) "91"))

(debugging "back to the last call before the crash"
  (moves-to '("the program" 13) (continue-on))
  (break-at 9)
  (moves-to '("HIT" 9) (chip8-debug-reverse))
  (same (step-shown) "86"))

(debugging "step over a call"
  (break-at 5)
  (moves-to '("the program" 5) (continue-on))
  (moves-to '("the program" 6) (dap-next (dap--cur-session)))
  (same (step-shown) "26")
  (moves-to '("the program" 5) (chip8-debug-back))
  (same (step-shown) "21"))

(debugging "out of a subroutine"
  (break-at 9)
  (moves-to '("HIT" 9) (continue-on))
  (moves-to '("the program" 6) (dap-step-out (dap--cur-session)))
  (same (step-shown) "26"))

(debugging "how did I get here"
  (break-at 9)
  (moves-to '("HIT" 9) (continue-on))
  (same (mapcar (lambda (frame) (list (gethash "name" frame) (gethash "line" frame)))
                (gethash 1 (dap--debug-session-thread-stack-frames (dap--cur-session))))
        '(("HIT" 9) ("the program" 5))))

(debugging "change a key and look again"
  (moves-to '("the program" 4) (typed "goto 60"))
  (same (typed "V3") "5 = #05")
  (contains (typed "release 4 at 40") "key 4 is up from step 40 on")
  (same (typed "V3") "3 = #03"))

(debugging "try a fix, and take it back"
  (moves-to '("the program" 13) (typed "goto 93"))
  (replace-in-line 8 "JP SCORE" "JP LOOP")
  (moves-to '("the program" 5) (save-buffer))
  (same (step-shown) "93")
  (replace-in-line 8 "JP LOOP" "JP SCORE")
  (moves-to '("the program" 13) (save-buffer)))

;;; debugger.el ends here
