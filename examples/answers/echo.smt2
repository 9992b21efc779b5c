(echo "a ""quoted"" word")
(set-option :print-success false)
(echo "two
lines")
(check-sat)
(echo "")
