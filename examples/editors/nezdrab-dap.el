;;; nezdrab-dap.el --- Emacs' dap-mode debugs a recorded run  -*- lexical-binding: t -*-
;; Set NEZDRAB to the folder of the clone, load this file, and begin with M-x dap-debug.
(require 'dap-mode)
(require 'dap-ui)
(require 'treemacs) ; for the list of variables, which in Debian 12 lacks the next line
(defvar treemacs-text-scale nil)
(dap-mode 1)
(dap-ui-mode 1) ; marks breakpoints and the current line
(add-to-list 'dap-output-buffer-filter "console") ; what the adapter says, not only complaints
(defvar nezdrab (or (getenv "NEZDRAB") default-directory) "The folder of the clone.")

(defun nezdrab-file (name) "A path in the clone." (expand-file-name name nezdrab))

(dap-register-debug-provider "nezdrab"
  (lambda (conf)
    (plist-put conf :dap-server-path (list (nezdrab-file "explore") "dap"))))

(dap-register-debug-template "Nezdrab: the hunt in the ledger"
  (list :type "nezdrab" :request "launch" :name "ledger" :turn 128066 :end 238614
        :session (nezdrab-file "examples/ledger/ledger.session")
        :symbols (vector (list :path (nezdrab-file "examples/ledger/kernel.sym") :mode "kernel")
                         (list :path (nezdrab-file "examples/ledger/user.sym") :mode "user"))
        :listings (vector (list :path (nezdrab-file "examples/ledger/ledger.lst")
                                :mode "kernel" :last "17777")
                          (list :path (nezdrab-file "examples/ledger/ledger.lst")
                                :mode "user" :first "20000" :moved "-20000"))))

;; dap-mode 0.7 has no commands for the requests that go back.
(defun nezdrab-step-back () "Goes back over a call, or one turn." (interactive)
  (dap--step "stepBack" (dap--cur-session-or-die)))
(defun nezdrab-reverse-continue () "Goes back to the last breakpoint." (interactive)
  (dap--step "reverseContinue" (dap--cur-session-or-die)))
