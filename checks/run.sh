#!/bin/sh
# Tries the job 'run' of the proved program: what no contract says, since each order of the threads is as good as another. It prints a
# line only where something is wrong. 'sh checks/run.sh N' makes N runs of each script of deadlocks in place of 1,000.
top=$(CDPATH= cd -- "$(dirname -- "$0")/.." && pwd) || exit 1
program=$top/crates/db2iso/out/db2iso
runs=${1:-1000}
[ -x "$program" ] || { echo "run: not tried, since the program is not built here (bin/db2iso builds it)"; exit 1; }
here=$(mktemp -d) || exit 1
trap 'rm -rf "$here"' EXIT
bad=0
wrong() { echo "run: $1"; bad=1; }

# on threads each connection is told what it is told on one thread: without '&' only the order between connections that one step
# frees together is left open, so the lines are compared connection by connection
by_connection() { sort -s -k2,2 "$1"; }
for script in "$top"/examples/*.script; do
    grep -q '^[[:blank:]]*&' "$script" && continue
    "$program" serial <"$script" >"$here/told"; one=$?
    by_connection "$here/told" >"$here/serial"
    "$program" run <"$script" >"$here/told"; two=$?
    by_connection "$here/told" >"$here/run"
    [ $one = $two ] && cmp -s "$here/serial" "$here/run" || wrong "$(basename "$script" .script): another transcript or status than on one thread"
done

# 32 connections; with a mark in front of their lines they are all at work at the same time, and many of them wait in cycles
connections() {
    echo 'DB2ISO 1'; echo 'TABLE T (ID INTEGER NOT NULL, V INTEGER)'; echo 'UNIQUE INDEX P ON T (ID)'
    for n in 1 2 3 4; do echo "ROW T ($n, $n)"; done
    for c in $(seq 32); do echo "CONNECT C$c RS"; done
    echo 'BEGIN'
    for c in $(seq 32); do echo "$1C$c: SELECT V FROM T WHERE ID = $((c % 4 + 1))"; done
    for c in $(seq 32); do echo "$1C$c: UPDATE T SET V = V + 1 WHERE ID = $((c % 4 + 1))"; done
    for c in $(seq 32); do echo "$1C$c: COMMIT"; done
    echo 'END'
}
connections '& ' >"$here/beside.script"
connections '' >"$here/apart.script"
lines=$(grep -c ': ' "$here/beside.script")

# each line is answered or told to be busy, the last line is END, and the status is 0
n=0
while [ $n -lt "$runs" ]; do
    n=$((n + 1))
    timeout 60 "$program" run <"$here/beside.script" >"$here/out"; status=$?
    [ $status = 0 ] || { wrong "deadlocks, run $n: status $status"; break; }
    [ "$(tail -n 1 "$here/out")" = END ] || { wrong "deadlocks, run $n: the last line is not END"; break; }
    told=$(awk '$3 == "BUSY" || $3 == "SQLCODE" { seen[$1] = 1 } END { for (k in seen) count++; print count + 0 }' "$here/out")
    [ "$told" = "$lines" ] || { wrong "deadlocks, run $n: $told lines of $lines are answered"; break; }
done

# where the system refuses threads the connections are driven by the one that is there, and the answers are the same
"$program" serial <"$here/apart.script" >"$here/serial"
for limit in 12000 60000 200000; do
    (ulimit -v $limit && exec timeout 60 "$program" run <"$here/apart.script" >"$here/out"); status=$?
    [ $status = 0 ] && cmp -s "$here/serial" "$here/out" || wrong "$limit KB of addresses: status $status, or another transcript"
done
exit $bad
