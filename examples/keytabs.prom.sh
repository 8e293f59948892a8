#!/bin/sh
# Writes what is wrong with keytabs, for the textfile collector of Prometheus' node_exporter. Have root's cron run it:
# keytabs.prom.sh DIRECTORY/keytabs.prom OPTION.. FILE.., with options of ktcheck, as --older 365d and --want NAME.
# krbfile_keytab_status is 0 if nothing is. If the check did not run to its end the text stays as it was.
set -eu
PATH=$PATH:/usr/local/bin
to=$1
shift
found=$(krbfile ktcheck --json "$@") || case $? in 1 | 3) ;; *) exit 1 ;; esac
text=$(printf '%s\n' "$found" | jq -rs '
    map(.labels = "file=" + (.file | gsub("[[:cntrl:]]"; "?") | tojson))
    | "# TYPE krbfile_keytab_status gauge",
      (.[] | "krbfile_keytab_status{\(.labels)} \(.status)"),
      "# TYPE krbfile_keytab_findings gauge",
      (.[] | .labels as $labels | .findings // [] | group_by(.finding)[]
          | "krbfile_keytab_findings{\($labels),finding=\"\(.[0].finding)\"} \(length)")')
printf '%s\n' "$text" >"$to.$$"
mv "$to.$$" "$to"
