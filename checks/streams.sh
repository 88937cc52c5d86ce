#!/bin/sh
# Tries the proved program on real streams: the edge that no proof reaches. It prints a line only where something is wrong.
top=$(CDPATH= cd -- "$(dirname -- "$0")/.." && pwd) || exit 1
program=$top/crates/db2iso/out/db2iso
script=$top/examples/first.script
[ -x "$program" ] || { echo "streams: not tried, since the program is not built here (bin/db2iso builds it)"; exit 1; }
bad=0
want() { # what, the status that is wanted, the status that came
    [ "$2" = "$3" ] || { echo "streams: $1: status $3 in place of $2"; bad=1; }
}
told=$("$program" serial <"$script"); want "the first script" 0 $?
[ "$told" = "$(cat "$top/examples/first.transcript")" ] || { echo "streams: the first script's transcript differs"; bad=1; }
if [ -w /dev/full ]; then
    "$program" serial <"$script" >/dev/full 2>/dev/null; want "a full device" 4 $?
    printf 'DB2ISO 1\nBEGIN\n' | "$program" serial >/dev/full 2>/dev/null; want "a refused script on a full device" 2 $?
    "$program" >/dev/full 2>/dev/null </dev/null; want "wrong words on a full device" 1 $?
fi
"$program" serial </ >/dev/null 2>/dev/null; want "a folder as input" 3 $?
"$program" serial <&- >/dev/null 2>/dev/null; want "no input at all" 3 $?
"$program" serial serial </dev/null >/dev/null; want "a word too many" 1 $?
code=$(mktemp) || exit 1
{ sleep 1; "$program" serial <"$script" 2>/dev/null; echo $? >"$code"; } | true
want "a pipe without a reader" 4 "$(cat "$code")"
rm -f "$code"
exit $bad
