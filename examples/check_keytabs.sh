#!/bin/sh
# A plugin for Nagios: check_keytabs.sh OPTION.. FILE.., with options of ktcheck, as --allow weak and --older 365d.
# It is CRITICAL if something is wrong with a keytab or one is missing, and counts what was found. Install it beside the
# other plugins, and have NRPE run it by sudo, since only root can read keytabs.
PATH=$PATH:/usr/local/bin
found=$(krbfile ktcheck -q --json "$@" 2>&1)
# 2 and 4: the check could not run, or not to its end. 3: a file could not be read, so nobody knows how it is; what was
# found in the others is in the line too.
case $? in
    0) state=OK status=0 ;;
    1) state=CRITICAL status=2 ;;
    *) state=UNKNOWN status=3 ;;
esac
# Messages stand beside the objects of files. After a bar Nagios would read performance data.
found=$(printf %s "$found" | jq -Rrn '[
    inputs | if startswith("krbfile: ") then .[9:] else fromjson | select(.findings) | "\(.file): " + (
        [(.findings | group_by(.finding)[] | "\(length) \(.[0].finding)"),
            (.fault // empty | "fault \(.kind) at \(.place)")] | join(", ")) end
    ] | join("; ") | gsub("[|\n]"; "/")')
printf 'KEYTABS %s%s\n' "$state" "${found:+: $found}"
exit "$status"
