#!/bin/sh
# Times `check` on trace texts near the limit of rows, beside a plain program where rustc is there.
#
#     bench/check.sh PROGRAM [NAME..]
#
# PROGRAM is a built furnacelime; NAMEs are those of `traces.py LIST`, all of them if none is given. For each text: its megabytes,
# its row lines, the processor time of PROGRAM in ms (user and system, least of RUNS, five if unset), the ratio to the plain program's
# (which reads plain texts alone), rows a second, and the peak of PROGRAM's memory in MB. Texts are made anew, and let go.
set -eu
here=$(dirname "$(readlink -f "$0")")
program=$(readlink -f "$1")
shift
names=${*:-$(python3 "$here/traces.py" LIST)}
work=$(mktemp -d)
trap 'rm -rf "$work"' EXIT
peer=
if command -v rustc >/dev/null; then
    rustc --edition 2021 -C opt-level=3 -C codegen-units=1 -C panic=abort -o "$work/plain" "$here/plain_check.rs" && peer=$work/plain
fi
printf '%-22s %8s %9s %8s %7s %12s %8s\n' text MB rows ms ratio rows/s peak-MB
for name in $names; do
    python3 "$here/traces.py" "$name" >"$work/text"
    RUNS=${RUNS:-5} python3 "$here/timing.py" "$name" "$work/text" "$program" $peer
done
