;;; sfcmon.el --- charts of sfcmon: modes, eglot or lsp-mode, dap-mode -*- lexical-binding: t -*-

;; Copy this to a folder of `load-path', and say (require 'sfcmon). Then M-x eglot (or lsp) in a chart, a script or a file of tests; with
;; dap-mode M-x dap-debug. `sfcmon-program' is the program, where it isn't on the path.

;;; Code:
(defvar sfcmon-program "sfcmon" "The program.")

(define-derived-mode sfc-chart-mode prog-mode "Chart"
  "Charts of IEC 61131-3."
  (setq-local comment-start "(* " comment-end " *)"))
(define-derived-mode sfc-script-mode prog-mode "Script"
  "Scripts of sfcmon."
  (setq-local comment-start "; " comment-end ""))
(define-derived-mode sfc-test-mode sfc-script-mode "Tests"
  "Tests of sfcmon.")

(add-to-list 'auto-mode-alist '("\\.\\(chart\\|sfc\\)\\'" . sfc-chart-mode))
(add-to-list 'auto-mode-alist '("\\.script\\'" . sfc-script-mode))
(add-to-list 'auto-mode-alist '("\\.sfctest\\'" . sfc-test-mode))

(with-eval-after-load 'eglot
  (dolist (mode '(sfc-chart-mode sfc-script-mode sfc-test-mode))
    (add-to-list 'eglot-server-programs (cons mode (list sfcmon-program "lsp")))))

(with-eval-after-load 'lsp-mode
  (dolist (pair '((sfc-chart-mode . "sfc-chart") (sfc-script-mode . "sfc-script") (sfc-test-mode . "sfc-test")))
    (add-to-list 'lsp-language-id-configuration pair))
  (lsp-register-client
   (make-lsp-client :new-connection (lsp-stdio-connection (lambda () (list sfcmon-program "lsp")))
                    :major-modes '(sfc-chart-mode sfc-script-mode sfc-test-mode)
                    :server-id 'sfcmon)))

;; dap-mode 0.7 reads this and doesn't define it.
(defvar dap-exception-breakpoints nil)

(with-eval-after-load 'dap-mode
  (dap-register-debug-provider
   "sfcmon" (lambda (given) (plist-put given :dap-server-path (list sfcmon-program "dap"))))
  (dap-register-debug-template
   "Debug the chart" (list :type "sfcmon" :request "launch" :name "Debug the chart" :program "${file}" :stopOnEntry t)))

(provide 'sfcmon)
;;; sfcmon.el ends here
