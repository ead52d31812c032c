#!/bin/sh
# Times `exec` beside `trace` and beside the plain program near the limit of rows, at windows 1, 32 and 1,024, one run each:
#
#     bench/exec.sh PROGRAM PLAIN [NAME ..]
#
# The sets are those of bench/sets.py: the eleven of docs/SPEED.md, or those named. A line of the table has the set, the window, the seconds
# of `trace`, of `exec` and of the plain program's `exec` by the clock, the ratios of `exec` to both, how often `exec` and the plain
# program were switched, and the peak memory of both in MB. All three must write the same text. RUNS=3 takes the least of three runs.
set -eu
here=$(dirname "$0")
program=$1
plain=$2
shift 2
[ $# -gt 0 ] || set -- one-few one-many four-few four-many four-past-64 eight-deep sixteen-few sixteen-many thirty-two-few thirty-two-many thirty-two-deep
dir=$(mktemp -d)
trap 'rm -rf "$dir"' EXIT

# least OUTPUT PROGRAM WORD..: of the shortest call its seconds, its switches, and its peak of memory in KB.
least() {
    to=$1
    shift
    for _ in $(seq "${RUNS:-1}"); do
        /usr/bin/time -o "$dir/time" -f '%e %w %c %M' "$@" <"$dir/input" >"$to"
        cat "$dir/time"
    done | sort -n | head -n 1
}

echo "| set | window | trace | exec | plain | exec to trace | exec to plain | switches of exec | of plain | MB of exec | of plain |"
echo "|---|---|---|---|---|---|---|---|---|---|---|"
for name in "$@"; do
    "$here/sets.py" "$name" "$("$here/fit.py" "$plain" "$name" | cut -d ' ' -f 2)" >"$dir/input"
    trace=$(least "$dir/rows" "$program" trace)
    for window in 1 32 1024; do
        exec=$(least "$dir/ran" "$program" exec --window "$window")
        cmp "$dir/rows" "$dir/ran"
        other=$(least "$dir/ran" "$plain" exec "$window")
        cmp "$dir/rows" "$dir/ran"
        echo "$name $window $trace $exec $other" | awk '{
            printf("| %s | %d | %.2f | %.2f | %.2f | %.1f | %.2f | %d | %d | %d | %d |\n", $1, $2, $3, $7, $11,
                ($3 > 0 ? $7 / $3 : 0), ($11 > 0 ? $7 / $11 : 0), $8 + $9, $12 + $13, $10 / 1024, $14 / 1024)
        }'
    done
done
