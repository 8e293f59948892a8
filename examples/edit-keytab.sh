#!/bin/sh
# Gives the bytes of a keytab to a command, and saves what that prints if it ends with status 0. This adds the entries
# of another as they are, where both are of version 2: edit-keytab.sh FILE sh -c 'cat; tail -c +3 OTHER'
# krbfile holds the file meanwhile, so be done within seconds. Killed before the last cat, the script saves nothing; by
# SIGKILL it leaves its directory, which only its user can read.
set -eu
umask 077
file=$1
shift
folder=$(mktemp -d)
trap 'rm -rf "$folder"' EXIT
trap 'exit 1' HUP INT TERM
mkfifo "$folder/in" "$folder/out"
# Opened for both first, a pipe waits for nobody: krbfile does not hang where the script is killed.
exec 7<>"$folder/in" 8<>"$folder/out"
exec 3>"$folder/in" 4<"$folder/out" 5<"$folder/in" 6>"$folder/out" 7>&- 8>&-
krbfile hold -k -- "$file" <&5 >&6 3>&- 4<&- 5<&- 6>&- &
exec 5<&- 6>&-
read -r line <&4 || line="nothing was saved"
case $line in
*[!0-9]*) ;;
*)
    head -c "$line" <&4 >"$folder/old"
    "$@" <"$folder/old" >"$folder/new" 3>&- 4<&-
    { echo "$(($(wc -c <"$folder/new")))" && cat "$folder/new"; } >"$folder/frame"
    cat "$folder/frame" >&3 || :
    exec 3>&-
    read -r line <&4 || line="it is not known whether $file was saved"
    ;;
esac
# The last line, after the image or in its place, says how it ended.
case $line in
saved | left) ;;
failed*) set -- $line && exit "$2" ;;
*) echo "$0: $line" >&2 && exit 1 ;;
esac
