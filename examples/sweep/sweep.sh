#!/bin/sh
# Answers any number of task sets, divided by lines `%%`, by as many calls of `batch` as it takes:
#
#     sweep.sh < SETS > ANSWERS
#
# The answer is byte for byte that of `batch` for one list of all the sets, had it no limit of bytes. GNU parallel cuts the
# text behind dividing lines, hands the parts to several calls at once and keeps their order. Words after the script's name go to
# `parallel`: `sweep.sh -j 4` for four at once, `sweep.sh -S one,two` for two other machines on which the program is.
#
# Where a call fails nothing is written, and the status is that of the first call that failed; 127 where GNU parallel is missing.
set -u
program=${FURNACELIME:-$(dirname "$(readlink -f "$0")")/../../furnacelime}
[ -n "${FURNACELIME-}" ] || [ -x "$program" ] || program=furnacelime # where it was installed

say() { echo "sweep: $*" >&2; }

# `parallel` of other makers takes other words.
if ! parallel --version 2>/dev/null </dev/null | grep -q '^GNU parallel'; then
    say "GNU parallel is needed, and isn't installed (Debian's package parallel)"
    exit 127
fi

case " $* " in
*" -S"* | *" --sshlogin"*) ;; # then the program is sought on the other machines
*) command -v "$program" >/dev/null || { say "there is no program $program"; exit 127; } ;;
esac

parts=$(mktemp) || exit 5
trap 'rm -f "$parts"' EXIT
trap 'exit 130' INT TERM HUP

# A part ends with its dividing line, behind which `batch` would see one more set, an empty one: that line goes. A call that fails is
# relieved of the bytes that it hasn't read, else `parallel` would end by the broken pipe and not with the status.
parallel --pipe --recend '%%\n' --block 500k --keep-order --halt now,fail=1 "$@" \
    "sed '\${/^%%\$/d}' | { '$program' batch; status=\$?; [ \$status -eq 0 ] || cat >/dev/null; exit \$status; }" >"$parts"
status=$?
if [ "$status" -ne 0 ]; then
    say "a call of batch ended with status $status, so there is no answer"
    exit "$status"
fi

# No bytes are one empty set, as for `batch`, though they make no part.
[ -s "$parts" ] || "$program" batch </dev/null >"$parts" || exit

# Each part has as many answers as it says.
if ! awk '/^sets / { said += $2 } /^set / { told++ } END { exit said != told }' "$parts"; then
    say "a part of the answer is cut short, so there is no answer"
    exit 4
fi
{
    echo "run-batch 1"
    echo "sets $(grep -c '^set ' "$parts")"
    awk '/^set / { $2 = count++; print }' "$parts"
} || { say "the answer could not be written"; exit 4; }
