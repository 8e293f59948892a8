#!/bin/sh
# Writes when each ticket of a credential cache ends, for the textfile collector of Prometheus' node_exporter. Have cron
# run it as the owner of the cache: tickets.prom.sh CACHE DIRECTORY/tickets.prom
# If the cache is missing or damaged the text stays as it was, and krbfile_ticket_end_seconds - time() goes on falling.
set -eu
PATH=$PATH:/usr/local/bin
cache=$(krbfile klist --json "$1")
# A label may have no escapes but \\, \" and \n. Of several tickets for one service the last to end counts.
text=$(printf '%s\n' "$cache" | jq -r '
    def pair($key): "\($key)=" + (.[$key] // .[$key + "_hex"] | gsub("[[:cntrl:]]"; "?") | tojson);
    pair("file") as $file
    | [.tickets[] | {endtime, labels: "\($file),\(pair("client")),\(pair("server"))"}]
    | "# TYPE krbfile_ticket_end_seconds gauge",
      (group_by(.labels)[] | "krbfile_ticket_end_seconds{\(.[0].labels)} \(map(.endtime) | max)")')
printf '%s\n' "$text" >"$2.$$"
mv "$2.$$" "$2"
