#!/bin/sh
# Runs the program on each script of examples/, and compares what it writes with the transcript beside it. The status is 2 where that
# refuses the script, else 0. A transcript NAME.seed-N is that of the script NAME with the seed N. It prints a line only where
# something is wrong. The proved program is taken where it is built here, as 'rt ci' and bin/db2iso leave it; else 'rt try' runs the
# same sources, some twenty seconds for each script.
top=$(CDPATH= cd -- "$(dirname -- "$0")/.." && pwd) || exit 1
program=$top/crates/db2iso/out/db2iso
run() {
    if [ -x "$program" ]; then "$program" "$@"; else (cd "$top/crates/db2iso" && rt try -- "$@" 2>/dev/null); fi
}
bad=0
for script in "$top"/examples/*.script; do
    name=$(basename "$script" .script)
    transcript=$top/examples/$name.transcript
    wanted=0
    case $(head -n 1 "$transcript") in "LINE "*) wanted=2 ;; esac
    told=$(run serial <"$script"; echo "status $?")
    [ "$told" = "$(cat "$transcript"; echo "status $wanted")" ] || { echo "examples: $name: another transcript or status"; bad=1; }
done
for transcript in "$top"/examples/*.seed-*.transcript; do
    name=$(basename "$transcript" .transcript)
    told=$(run serial --seed "${name##*.seed-}" <"$top/examples/${name%.seed-*}.script"; echo "status $?")
    [ "$told" = "$(cat "$transcript"; echo "status 0")" ] || { echo "examples: $name: another transcript or status"; bad=1; }
done
exit $bad
