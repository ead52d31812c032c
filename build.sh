#!/bin/sh
# Proves and builds the program, or the crate that is named (furnacelime_c: the library for C), and the crates that it needs,
# as many at once as there are processors and memory for, each as soon as those below it are done. It tells on standard error
# how far it is.
#
# The kit's compiler is called as the gate calls it: a crate's library holds what the crate states and not its proofs, so those above
# read less. A library is kept under a sum of all that it was made from. So a build that was stopped goes on where it was, and after
# an edit the crates that changed are proved, and those above them.
#
# Lists of crates are several words, and `a && b || c` is meant as it reads.
# shellcheck disable=SC2086,SC2015,SC2013
top=$(dirname "$(readlink -f "$0")")
program=furnacelime
wanted=${1:-$program}
libraries=$top/.git/build
[ -d "$top/.git" ] || libraries=${XDG_CACHE_HOME:-$HOME/.cache}/furnacelime-build

say() { echo "furnacelime: $*" >&2; }

grep -q "^${wanted}[ :]" "$top/crates.txt" || { say "there is no crate $wanted"; exit 2; }
for tool in rt setsid; do
    command -v "$tool" >/dev/null || { say "the command $tool is needed to build the program (rt is the Rattle kit's)"; exit 127; }
done
kit=$(dirname "$(dirname "$(readlink -f "$(command -v rt)")")")

# One build at a time works on the libraries.
mkdir -p "$libraries" && exec 9>"$libraries/lock" || { say "nothing can be written to $libraries"; exit 126; }
if command -v flock >/dev/null && ! flock -n 9; then
    say "another build is at work; this one waits for it"
    flock 9
fi

work=$(mktemp -d) || exit 126
# Each build that has ended is a line here.
mkfifo "$work/endings" && exec 8<>"$work/endings" || exit 126
# Ends the builds that go on, each with all that it called.
stop() { for it in "$work"/*.group; do [ -e "$it" ] && kill -- "-$(cat "$it")" 2>/dev/null; done; }
trap 'rm -rf "$work"' EXIT
trap 'echo >&2; say "stopped; what is done is kept, and the next call goes on"; stop; wait; exit 130' INT TERM HUP

# The length of a crate's code. What a crate takes goes by that, and not by the length of its proofs.
size_of() { find "$top/crates/$1/src" -type f -exec cat {} + 2>/dev/null | wc -c; }

sed -n 's/^\([a-z][a-z_]*\).*:.*/\1/p' "$top/crates.txt" | while read -r name; do
    echo "$name $(size_of "$name")"
done >"$work/sizes"

# Each crate of the repository that the wanted one needs, with the processor seconds that it takes and those of them that it stands
# on: first the one with the longest chain of crates above it, since that chain decides how long the whole takes. The seconds are those
# that its last build left (NAME.took); before its first build 1.7 for each 1,000 bytes of its code, and 0.07 for each 1,000 bytes of the
# crates below it, whose statements are read.
cat "$libraries"/*.took >"$work/took" 2>/dev/null
awk -v wanted="$wanted" '
    FILENAME ~ /sizes$/ { size[$1] = $2; next }
    FILENAME ~ /took$/ { takes[$1] = $2; next }
    /^[a-z]/ { name = $1; sub(":.*", "", name); line = $0; sub("^[^:]*:", "", line); below[name] = line }
    function read_below(crate, of,    names, n, i) {
        if ((of, crate) in seen) return 0
        seen[of, crate] = 1
        n = split(below[crate], names, " ")
        for (i = 1; i <= n; i++) if (names[i] in below) read_below(names[i], of)
        takes[of] += (crate == of ? 0.0017 : 0.00007) * size[crate]
    }
    function visit(crate, chain,    names, n, i) {
        if (!(crate in takes)) read_below(crate, crate)
        chain += takes[crate]
        if (crate in above && above[crate] >= chain) return
        above[crate] = chain
        own[crate] = ""
        n = split(below[crate], names, " ")
        for (i = 1; i <= n; i++) if (names[i] in below) { own[crate] = own[crate] " " names[i]; visit(names[i], chain) }
    }
    END { visit(wanted, 0); for (crate in above) printf "%d %s %d%s\n", above[crate], crate, takes[crate] + 1, own[crate] }' \
    "$work/sizes" "$work/took" "$top/crates.txt" | sort -k 1,1nr -k 2,2 | cut -d ' ' -f 2- >"$work/crates"

# The sum of all that a crate is made from: the kit, its line, its files, and the sums of the crates of the repository that it stands on.
version=$(rt version)
sum_of() {
    crate=$1
    shift
    {
        echo "$version"
        grep "^${crate}[ :]" "$top/crates.txt"
        (cd "$top/crates/$crate" && find src specs proofs -type f -exec sha256sum {} + 2>/dev/null | LC_ALL=C sort)
        for below in "$@"; do cat "$work/$below.sum"; done
    } | sha256sum | cut -d ' ' -f 1
}

# What is made of a crate: a library for the crates above it, the program, or a library for C.
kind_of() {
    if [ -e "$top/crates/$1/src/main.rt" ]; then echo program
    elif grep -q "^$1 .*staticlib.*:" "$top/crates.txt"; then echo archive
    else echo library
    fi
}

# Where that is.
made_of() {
    case $(kind_of "$1") in
    program) echo "$top/crates/$1/out/$1" ;;
    archive) echo "$top/crates/$1/out/lib$1.a" ;;
    library) echo "$libraries/$1.rlib" ;;
    esac
}

# The crates that are built from what they are now need nothing. (In this order each stands behind those that it stands on.)
while read -r name _ below; do
    sum_of "$name" $below >"$work/$name.sum"
    [ -e "$(made_of "$name")" ] && cmp -s "$work/$name.sum" "$libraries/$name.sum" || echo "$name" >>"$work/wanting"
done <"$work/crates"
touch "$work/wanting"
while read -r name _; do
    grep -qx "$name" "$work/wanting" || { : >"$work/$name.begun" && : >"$work/$name.done"; }
done <"$work/crates"

count=$(wc -l <"$work/wanting")
whole=$(awk 'NR == FNR { wanting[$1] = 1; next } $1 in wanting { whole += $2 } END { print whole + 0 }' "$work/wanting" "$work/crates")

if [ "$count" -eq 0 ]; then
    touch "$(made_of "$wanted")"
    exit 0
fi

# A check takes up to 2 GB of memory and a processor.
processors=$(getconf _NPROCESSORS_ONLN 2>/dev/null || echo 1)
memory=$(awk '/^MemAvailable/ { print int($2 / 2097152) }' /proc/meminfo 2>/dev/null)
memory=${memory:-$processors}
jobs=$((memory < processors ? memory : processors))
[ "$jobs" -lt 1 ] && jobs=1

say "proving and building $wanted first: $count crates, $jobs at once; it takes 2 GB of memory for each of them and 2 GB of disk"

began=$(date +%s)
done_count=0
done_size=0

# Tells how far the build is, after this crate: on a terminal on one line, else on a line of its own.
tell() {
    took=$(($(date +%s) - began))
    text="$done_count of $count crates, $((took / 60)) min $((took % 60)) s"
    if [ "$done_size" -gt 0 ] && [ "$done_count" -lt "$count" ] && [ "$took" -ge 30 ]; then
        left=$((took * (whole - done_size) / done_size))
        text="$text, about $(((left + 59) / 60)) min left"
    fi
    if [ -t 2 ]; then
        printf '\r\033[Kfurnacelime: %s (%s)' "$text" "$1" >&2
    else
        say "$text ($1)"
    fi
}

# Whether all crates that it stands on are done.
may_begin() {
    for below in "$@"; do
        [ -e "$work/$below.done" ] || return 1
    done
}

# Runs a command in a process group of its own, by which it can be ended with all that it calls.
alone() {
    setsid "$@" &
    echo $! >"$work/$crate.group"
    wait $!
}

# The kit's compiler over one crate with so many jobs. It makes nothing of a crate that isn't proved.
compile() {
    crate=$1
    made=$2
    set -- --crate-name "$crate" --jobs "$3" --extern "std=$kit/rlibs/std.rlib"
    for below in $(sed -n "s/^$crate\( [^:]*\)\{0,1\}://p" "$top/crates.txt"); do
        at=$kit/rlibs
        [ -d "$top/crates/$below" ] && at=$libraries
        set -- "$@" --extern "$below=$at/$below.rlib"
    done
    set -- "$@" -L "dependency=$kit/rlibs" -L "dependency=$libraries" --links "$crate="
    set -- "$@" --antt-project "$kit/rattle/logic/antt-project.json" --logic-built "$kit/logic_built"
    cd "$top/crates/$crate" && mkdir -p "$(dirname "$made")" || return
    case $(kind_of "$crate") in
    library)
        alone "$kit/bin/rattle" build src/lib.rt "$@" --statements -o "$made"
        ;;
    archive)
        alone "$kit/bin/rattle" build src/lib.rt "$@" --crate-type staticlib --backend llvm --toolchain "$kit/toolchain" -o "$made"
        ;;
    program)
        alone "$kit/bin/rattle" build src/main.rt "$@" --backend llvm --toolchain "$kit/toolchain" -o "$made.o" &&
            alone "$kit/bin/rattle-link" --target x86_64-unknown-linux-gnu --toolchain "$kit/toolchain" -o "$made" "$made.o" \
                "$kit/c/libos_c.a" "$kit/c/liblibc_c.a" && rm "$made.o"
        ;;
    esac
}

# Proves and builds one crate, to which so many processors are given, with so many jobs, and notes how that ended and how many
# processor seconds it took.
build() {
    echo "$2" >"$work/$1.processors"
    made=$(made_of "$1")
    rm -rf "$made" "$libraries/$1.sum"
    (
        compile "$1" "$made" "$3" </dev/null >"$work/$1.log" 2>&1
        echo $? >"$work/$1.status"
        times >"$work/$1.times"
        awk -v crate="$1" 'NR == 2 { split($1 "m" $2, took, "[ms]+"); printf "%s %d\n", crate, 60 * (took[1] + took[3]) + took[2] + took[4] }' \
            "$work/$1.times" >"$libraries/$1.took"
        mv "$work/$1.status" "$work/$1.ended"
        echo "$1" >&8
    ) 2>/dev/null &
}

# The compiler of another kit may take other words. Then the kit's own command builds what is wanted, one crate after the other.
by_kit() {
    say "the compiler of this kit takes other words; the command rt builds $wanted in its own way, which takes longer"
    stop
    cd "$top/crates/$wanted" || exit 126
    made=$(made_of "$wanted")
    rm -rf "$made"
    case $(kind_of "$wanted") in
    program) rt run </dev/null >"$work/log" 2>&1; status=$? ;;
    *) rt lib >"$work/log" 2>&1; status=$? ;;
    esac
    # The program ends with its own status, so it counts that it is there; a library for other crates stands where the kit keeps it.
    [ -e "$made" ] || [ "$(kind_of "$wanted") $status" = "library 0" ] && { say "built"; exit 0; }
    tail -n 20 "$work/log" >&2
    say "$wanted could not be built (status $status)"
    exit 126
}

# Takes note of the builds that have ended; the first that failed ends this one. What was edited meanwhile is built again by the next.
take_ended() {
    while read -r name size below; do
        [ -e "$work/$name.ended" ] && [ ! -e "$work/$name.done" ] || continue
        if [ "$(cat "$work/$name.ended")" != 0 ]; then
            [ -t 2 ] && echo >&2
            grep -q 'unexpected argument' "$work/$name.log" && by_kit
            grep -E 'error|not proved|no proof' "$work/$name.log" | head -n 20 >&2
            say "the crate $name could not be built"
            stop
            exit 126
        fi
        [ "$(sum_of "$name" $below)" = "$(cat "$work/$name.sum")" ] && cp "$work/$name.sum" "$libraries/"
        : >"$work/$name.done"
        free=$((free + $(cat "$work/$name.processors")))
        done_count=$((done_count + 1))
        done_size=$((done_size + size))
        tell "$name"
    done <"$work/crates"
}

# The crates that may begin with what they take, the longest chain first.
ready() {
    while read -r name size below; do
        [ ! -e "$work/$name.begun" ] && may_begin $below && echo "$name $size"
    done <"$work/crates"
}

# Whether no more crates than there are processors can go on beside a crate: those that aren't done and don't stand on it. Then it has a
# job for each processor, or some of them would wait.
is_alone() {
    awk -v crate="$1" -v jobs="$jobs" -v work="$work" '
        function is_above(it) { return (it in above) }
        { name[NR] = $1; line[NR] = $0 }
        END {
            above[crate] = 1
            for (i = 1; i <= NR; i++) {
                n = split(line[i], below, " ")
                for (k = 3; k <= n; k++) if (is_above(below[k])) above[name[i]] = 1
            }
            for (i = 1; i <= NR; i++) if (!is_above(name[i]) && (getline _ < (work "/" name[i] ".done")) < 0) beside++
            exit !(beside <= jobs)
        }' "$work/crates"
}

# Whether what a crate takes is more than half of what all that is left takes on all processors: then the others would wait for it.
is_long() { [ "$((2 * $1 * jobs))" -gt "$((whole - done_size))" ]; }

# Each crate has a processor and one job, since several jobs take more work for the same proofs; a processor that no crate waits for is
# one more. Where there is memory, a crate beside which few others can go on has a job for each processor, and a long one two at least, and
# the system shares the processors out: of exec_workers two take a quarter less time and a quarter more work than one, four hardly less time
# and half as much work again.
free=$jobs
while [ "$done_count" -lt "$count" ]; do
    take_ended
    ready >"$work/ready"
    left=$(wc -l <"$work/ready")
    while [ "$free" -gt 0 ] && read -r name size; do
        share=$((free / left))
        [ "$share" -lt 1 ] && share=1
        [ "$share" -gt 4 ] && share=4
        at_once=$share
        if [ "$memory" -ge "$((2 * jobs))" ]; then
            [ "$share" -eq 1 ] && is_long "$size" && at_once=2
            [ "$jobs" -gt "$share" ] && is_alone "$name" && at_once=$((jobs < 4 ? jobs : 4))
        fi
        : >"$work/$name.begun"
        build "$name" "$share" "$at_once"
        free=$((free - share))
        left=$((left - 1))
    done <"$work/ready"
    [ "$done_count" -lt "$count" ] && read -r _ <&8
done
[ -t 2 ] && echo >&2
say "built"
