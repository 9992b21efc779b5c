(set-option :verbosity 1)
(declare-const p Bool)
(check-sat)
