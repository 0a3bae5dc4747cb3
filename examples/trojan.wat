;; Reviewed: nothing is deleted below /data.
(rules $web-server
  (layer 0 (keep "/data/**"))
  (layer 1 (; ‮(drop "/data/**") ⁦;) (keep "/srv")))
