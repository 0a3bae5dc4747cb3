;; How the layers of this image are merged: the last rule that matches a path wins.
(rules $web-server
  (@version 2)
  (layer 0 (keep "/etc/**"))
  (layer 1
    (; Logs are thrown away,
       (; but not those of the package manager: see the audit of spring ;)
       whatever the layer above says. ;)
    (drop "/var/log/*")
    (keep "/var/log/apt"))
  (layer 2 (max-size +16_777_216) (opaque "/srv/caf\c3\a9")))
