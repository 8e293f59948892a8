#!/bin/sh
# A plugin for Nagios: check_tickets.sh KEYTAB CACHE.., with options of ktmatch before these, as -p NAME. It is CRITICAL
# if KEYTAB does not open a ticket, and says why not. Have kvno get new tickets first.
PATH=$PATH:/usr/local/bin
said=$(krbfile ktmatch -q "$@" 2>&1)
case $? in
    0) state=OK status=0 ;;
    1) state=CRITICAL status=2 ;;
    *) state=UNKNOWN status=3 ;;
esac
# After a bar Nagios would read performance data.
printf 'TICKETS %s%s\n' "$state" "${said:+: $(printf %s "$said" | tr '|\n' '/;')}"
exit "$status"
