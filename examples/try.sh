#!/bin/sh
# Tries the examples in C and Python. The program in C that follows a table is compiled by each C compiler that is there, and as C++ where that is there,
# and run on the table of the three tasks; two tables are followed a thousand times, and what was run is judged as a trace of that horizon; the tables of
# further sets, and of a set without tasks, are compiled without a warning. Then the library for C is built, its rounds of
# the three tasks are compared with those that were worked by hand, those of further sets follow each other, what its commands answer is compared with
# what the program writes, from C and from Python, and the module for Python and the sweep are tried by what their documentation shows. The executive
# for C executes each set, its book is tried call by call, also under the sanitizers that a compiler has, and the dispatcher runs a set by the clock.
# What isn't there, or can't be built within forty minutes, is said, and isn't tried. It takes a minute of one processor beside the building of the library.
top=$(cd "$(dirname "$0")/.." && pwd)
program=$top/crates/furnacelime/out/furnacelime
library=$top/crates/furnacelime_c/out/libfurnacelime_c.a

compilers=
for compiler in cc gcc clang; do
    command -v "$compiler" >/dev/null && compilers="$compilers $compiler"
done
[ -n "$compilers" ] || { echo "examples: no C compiler is here, so the examples in C and Python weren't tried"; exit 0; }

work=$(mktemp -d) || exit 1
trap 'rm -rf "$work"' EXIT
failed=0
fail() { echo "examples: $*"; failed=1; }

# table NAME: the table of a set of the examples.
table() { "$program" table <"$top/examples/$1.toml" >"$work/table.h" || fail "$1 has no table"; }

# cpp_of COMPILER: the compiler of C++ that belongs to this one of C.
cpp_of() {
    case $1 in gcc) echo g++ ;; clang) echo clang++ ;; *) echo c++ ;; esac
}

# ran_trace SET HORIZON: the trace text of the rows in `ran`, up to so many units: with the tasks of the set, and when each period was done.
ran_trace() {
    "$program" trace --met <"$1" >"$work/told" || fail "$1 has no trace"
    awk -v horizon="$2" '
        NR == FNR {
            if ($1 == "processors") processors = $2
            if ($1 == "scale") scale = $2
            if ($1 == "task") { head[++tasks] = $0; number[$2] = tasks; name[tasks] = $2; period[tasks] = $4; offset[tasks] = $5 }
            next
        }
        {
            row[++rows] = $0
            if ($5 == "-") next
            t = number[$5]
            total[t] += $4 - $3
            for (k = int(($3 / scale - offset[t]) / period[t]); (offset[t] + k * period[t]) * scale < $4; k++) {
                end = (offset[t] + (k + 1) * period[t]) * scale
                if (end > $4) end = $4
                if (end > finish[t, k]) finish[t, k] = end
            }
        }
        END {
            printf "run-trace 2\nprocessors %d\nhorizon %d\nscale %d\ntasks %d\n", processors, horizon, scale, tasks
            for (t = 1; t <= tasks; t++) print head[t]
            for (i = 1; i <= rows; i++) print row[i]
            for (t = 1; t <= tasks; t++) printf "total %s %d\n", name[t], total[t]
            for (t = 1; t <= tasks; t++)
                for (k = 0; offset[t] + (k + 1) * period[t] <= horizon; k++) printf "met %s %d %d\n", name[t], k, finish[t, k]
            printf "rows %d\n", rows
        }' "$work/told" "$work/ran"
}

# follow_long SET HORIZON: follows the table a thousand times, and judges what was run up to that horizon.
follow_long() {
    "$work/follow" 0 1000 rows >"$work/ran" || fail "the table of $1 isn't followed"
    ran_trace "$1" "$2" | "$program" check >"$work/report" || fail "what was run of $1 in a thousand turns: $(head -n 1 "$work/report")"
}

# Compiles tables with one compiler, and follows some.
try_tables() {
    strict="$1 -std=c99 -Wall -Wextra -pedantic -Werror -O2"
    table three-tasks
    $strict -I "$work" -pthread -o "$work/follow" "$top/examples/c/follow_table.c" || fail "$1 does not compile follow_table.c"
    printf 'processor 0 ran a 6 b 3\nprocessor 1 ran b 3 c 6\n' >"$work/wanted"
    "$work/follow" | cmp - "$work/wanted" || fail "the table of the three tasks is followed otherwise ($1)"
    follow_long "$top/examples/three-tasks.toml" 3000
    # Three tasks that begin one after the other: up to unit 3 once, and then the 3 units up to the horizon for ever.
    printf 'processors = 2\nhorizon = 6\n' >"$work/late.toml"
    for i in 0 1 2; do printf '[[task]]\nname = "t%d"\nwork = 2\nperiod = 3\noffset = %d\n' $i $i; done >>"$work/late.toml"
    "$program" table <"$work/late.toml" >"$work/table.h" || fail "a set with offsets has no table"
    $strict -I "$work" -pthread -o "$work/follow" "$top/examples/c/follow_table.c" || fail "$1 does not compile follow_table.c for a set with offsets"
    follow_long "$work/late.toml" 3003
    cpp=$(cpp_of "$1")
    if command -v "$cpp" >/dev/null; then
        table three-tasks
        strict_cpp="$cpp -x c++ -std=c++17 -Wall -Wextra -pedantic -Werror -O2"
        $strict_cpp -I "$work" -pthread -o "$work/follow" "$top/examples/c/follow_table.c" || fail "$cpp does not compile follow_table.c"
        "$work/follow" | cmp - "$work/wanted" || fail "the table of the three tasks is followed otherwise ($cpp)"
        {
            printf '#include <stdint.h>\nextern const struct furnacelime_table furnacelime_table;\n'
            printf 'const struct furnacelime_table *volatile used = &furnacelime_table;\nint main() { return used == nullptr; }\n'
        } >"$work/uses.cpp"
        { $strict_cpp -c -o "$work/table.o" "$work/table.h" && $strict_cpp -o "$work/uses" "$work/uses.cpp" -x none "$work/table.o" && "$work/uses"; } ||
            fail "the table, compiled by itself by $cpp, isn't linked"
    fi
    for set in quadcopter engine-controller video-wall microseconds; do
        table "$set"
        $strict -c -x c -o "$work/table.o" "$work/table.h" || fail "$1 does not compile the table of $set"
    done
    printf 'processors = 2\nhorizon = 1\n' | "$program" table >"$work/table.h" || fail "a set without tasks has no table"
    $strict -c -x c -o "$work/table.o" "$work/table.h" || fail "$1 does not compile the table of a set without tasks"
    echo "examples: tables were compiled by $1 and followed"
}

# Goes through rounds by the library, with one compiler.
try_rounds() {
    "$1" -std=c99 -Wall -Wextra -pedantic -Werror -O2 -I "$top/include" -o "$work/rounds" "$top/examples/c/rounds.c" \
        "$library" "$kit/c/liblibc_c.a" || { fail "$1 does not compile rounds.c"; return; }
    "$work/rounds" "$top/examples/three-tasks.toml" | cmp - "$top/examples/c/three-tasks.rounds" || fail "other rounds ($1)"
    "$work/rounds" "$top/examples/overloaded.toml" 2>/dev/null
    [ $? = 7 ] || fail "the overloaded set isn't refused ($1)"
    for set in quadcopter engine-controller video-wall; do
        "$work/rounds" "$top/examples/$set.toml" >"$work/told" || fail "$set has no rounds ($1)"
        awk '$2 != last + 0 { exit 1 } { last = $3 }' "$work/told" || fail "the rounds of $set don't follow each other ($1)"
    done
    echo "examples: rounds.c was compiled by $1 and run"
}

# same COMMAND FILE WORDS..: does a command over a file by the library and by the program, with these words, and compares statuses and texts.
# FROM and UNITS stand behind the file where `numbers` has them.
same() {
    name=$1 file=$2
    shift 2
    # shellcheck disable=SC2086 # numbers are none or two words
    "$work/commands" "$name" "$file" $numbers >"$work/told" 2>"$work/line"
    status=$?
    "$program" "$@" <"$file" >"$work/wanted" 2>"$work/wanted-line"
    { [ $? = $status ] && cmp -s "$work/told" "$work/wanted" && cmp -s "$work/line" "$work/wanted-line"; } || fail "fl_$name answers $file otherwise"
}

# Does each command by the library, with one compiler.
try_commands() {
    "$1" -std=c99 -Wall -Wextra -pedantic -Werror -O2 -I "$top/include" -o "$work/commands" "$top/examples/c/commands.c" \
        "$library" "$kit/c/liblibc_c.a" || { fail "$1 does not compile commands.c"; return; }
    numbers=
    for set in three-tasks quadcopter engine-controller video-wall overloaded scale-too-large; do
        for command in rate tree trace table; do same $command "$top/examples/$set.toml" $command; done
        same trace-met "$top/examples/$set.toml" trace --met
        same trace-wrap "$top/examples/$set.toml" trace --by wrap
    done
    "$program" trace <"$top/examples/video-wall.toml" >"$work/valid.trace"
    sed '/^row 1 /s/ \([0-9]*\) / 0 /' "$work/valid.trace" >"$work/invalid.trace"
    for trace in valid.trace invalid.trace; do
        same check "$work/$trace" check
        same draw "$work/$trace" draw
    done
    same follow "$top/examples/by-hand.tree" follow
    same follow "$work/valid.trace" follow
    same check /dev/null check
    numbers='2 3'
    same draw "$work/valid.trace" draw --from 2 --units 3
    set=$top/examples/three-tasks.toml
    for words in rate "none $set" "rate $set 2 3" "draw $work/valid.trace 2" "draw $work/valid.trace 2 x"; do
        # shellcheck disable=SC2086 # several words
        "$work/commands" $words >"$work/told" 2>/dev/null
        { [ $? = 2 ] && [ ! -s "$work/told" ]; } || fail "commands.c takes the words $words ($1)"
    done
    printf 'processors = 2\nhorizon = 200000\ntask = [{name = "a", work = 2, period = 3}, {name = "b", work = 4, period = 5}]\n' |
        "$program" trace >"$work/long.trace"
    numbers=
    same check "$work/long.trace" check
    "$work/commands" rate "$work" >"$work/told" 2>/dev/null
    { [ $? = 3 ] && [ ! -s "$work/told" ]; } || fail "commands.c reads a folder ($1)"
    echo "examples: commands.c was compiled by $1 and run"
}

# executes SET: executes a set by the library, and compares status and text with those of `trace`; the line where the set is refused.
executes() {
    "$work/executive" "$1" 0 >"$work/told" 2>"$work/line"
    status=$?
    "$program" trace <"$1" >"$work/wanted" 2>"$work/wanted-line"
    { [ $? = $status ] && cmp -s "$work/told" "$work/wanted"; } || { fail "the executive for C answers $1 otherwise"; return; }
    [ "$status" = 0 ] || cmp -s "$work/line" "$work/wanted-line" || fail "the executive for C refuses $1 with another line"
}

# ends STATUS PROGRAM WORD..: whether a program ends with this status at these words, and says why on standard error alone.
ends() {
    wanted=$1
    shift
    "$@" >"$work/told" 2>"$work/line"
    status=$?
    { [ "$status" = "$wanted" ] && [ ! -s "$work/told" ] && [ -s "$work/line" ]; } || fail "$(basename "$1") ends with $status at faulty words"
}

# tried SECONDS PROGRAM WORD..: runs a program for so many seconds at most; where it fails, its status and all that it said are shown.
tried() {
    seconds=$1
    shift
    timeout "$seconds" "$@" >"$work/told" 2>"$work/line" && return
    echo "examples: it ended with $? (124: it took more than $seconds seconds), and said:"
    cat "$work/told" "$work/line"
    return 1
}

# Tries the book call by call, with each allocation refused, and executes sets, with one compiler.
try_executive() {
    strict="$1 -std=c99 -Wall -Wextra -pedantic -Werror -O2 -I $top/include -pthread"
    $strict -o "$work/executive_test" "$top/examples/c/executive_test.c" "$library" "$kit/c/liblibc_c.a" &&
        $strict -Wl,--wrap=malloc,--wrap=realloc,--wrap=free -o "$work/executive_memory" "$top/examples/c/executive_memory.c" "$library" "$kit/c/liblibc_c.a" &&
        $strict -o "$work/executive" "$top/examples/c/executive.c" "$library" "$kit/c/liblibc_c.a" ||
        { fail "$1 does not compile the executive"; return; }
    tried 300 "$work/executive_test" || fail "the executive is otherwise than it should be ($1)"
    tried 300 "$work/executive_memory" || fail "the executive answers a refused allocation otherwise ($1)"
    if [ -x "$program" ]; then
        for set in "$top"/examples/*.toml; do executes "$set"; done
        "$work/executive" "$top/examples/video-wall.toml" 0 2>"$work/line" | "$program" check >"$work/told" || fail "what ran isn't valid ($1)"
    fi
    ends 2 "$work/executive"
    ends 2 "$work/executive" "$top/examples/three-tasks.toml" 1x
    ends 2 "$work/executive" "$top/examples/three-tasks.toml" 1 100
    ends 3 "$work/executive" "$work/no-such-file"
    ends 6 "$work/executive" /dev/null
    echo "examples: the executive was compiled by $1 and tried"
}

# Tries the executive with one C++ compiler.
try_plus_plus() {
    "$1" -x c++ -std=c++11 -Wall -Wextra -pedantic -Werror -O2 -I "$top/include" -pthread -o "$work/executive_test" "$top/examples/c/executive_test.c" \
        -x none "$library" "$kit/c/liblibc_c.a" && tried 300 "$work/executive_test" || fail "the executive is otherwise in C++ ($1)"
    echo "examples: the executive was compiled by $1 and tried"
}

# Tries the executive and the dispatcher with one compiler and sanitizer. A sanitizer looks for memory where it lay when it was written; where the
# kernel places programs more freely, it ends them at their start. So they are run in one place, where that is allowed.
try_sanitizer() {
    strict="$1 -Wall -Wextra -pedantic -Werror -O1 -g -fsanitize=$2 -fno-sanitize-recover=all -I $top/include -pthread"
    in_place=
    setarch "$(uname -m)" -R true 2>/dev/null && in_place="setarch $(uname -m) -R"
    echo 'int main(void) { return 0; }' >"$work/empty.c"
    # shellcheck disable=SC2086 # none or three words
    { $strict -o "$work/empty" "$work/empty.c" && $in_place "$work/empty"; } >/dev/null 2>&1 ||
        { echo "examples: $1 has no sanitizer '$2' here, so the executive wasn't tried with it"; return; }
    # shellcheck disable=SC2086
    $strict -std=c99 -o "$work/executive_test" "$top/examples/c/executive_test.c" "$library" "$kit/c/liblibc_c.a" &&
        tried 600 $in_place "$work/executive_test" || fail "the executive is at fault by $1 with the sanitizer '$2'"
    # shellcheck disable=SC2086
    $strict -std=c11 -o "$work/dispatch" "$top/examples/c/dispatch.c" "$library" "$kit/c/liblibc_c.a" &&
        tried 60 $in_place "$work/dispatch" -u 1000000 "$top/examples/three-tasks.toml" 3 "$top/examples/three-tasks.toml" 2 ||
        fail "the dispatcher is at fault by $1 with the sanitizer '$2'"
    echo "examples: the executive and the dispatcher were tried by $1 with the sanitizer '$2'"
}

# Runs sets by the clock, with one compiler, and compares what ran with the schedule: that it is told, and not how late it was.
try_dispatcher() {
    "$1" -std=c11 -Wall -Wextra -pedantic -Werror -O2 -I "$top/include" -pthread -o "$work/dispatch" "$top/examples/c/dispatch.c" \
        "$library" "$kit/c/liblibc_c.a" || { fail "$1 does not compile dispatch.c"; return; }
    "$work/dispatch" -u 1000000 -w 50 "$top/examples/three-tasks.toml" 4 "$top/examples/three-tasks.toml" 2 >"$work/ran" 2>"$work/line" ||
        fail "the dispatcher does not run ($1)"
    [ "$(grep -c '^job ' "$work/ran")" = 18 ] || fail "the dispatcher tells other jobs ($1)"
    if [ -x "$program" ] && command -v python3 >/dev/null; then
        "$program" trace <"$top/examples/three-tasks.toml" >"$work/set.trace"
        python3 -m doctest "$top/examples/python/measured.py" || fail "measured.py tells other than it says"
        python3 "$top/examples/python/measured.py" --svg "$work/ran.svg" "$work/ran" "$work/set.trace" "$work/set.trace" >"$work/told"
        [ $? -le 1 ] && [ "$(grep -c '^[abc] *[42] ' "$work/told")" = 6 ] && grep -q 'jobs' "$work/told" || fail "what ran isn't compared ($1)"
        python3 -c 'import sys, xml.dom.minidom; xml.dom.minidom.parse(sys.argv[1])' "$work/ran.svg" || fail "what ran has no picture ($1)"
        ends 6 python3 "$top/examples/python/measured.py" "$work/set.trace" "$work/set.trace"
        ends 6 python3 "$top/examples/python/measured.py" "$work/ran" "$work/set.trace"
        ends 2 python3 "$top/examples/python/measured.py" "$work/no-such-file" "$work/set.trace"
    fi
    ends 2 "$work/dispatch"
    ends 2 "$work/dispatch" -u 0 "$top/examples/three-tasks.toml" 1
    ends 2 "$work/dispatch" -w d=50 "$top/examples/three-tasks.toml" 1
    ends 3 "$work/dispatch" "$work/no-such-file" 1
    ends 6 "$work/dispatch" /dev/null 1
    ends 6 "$work/dispatch" "$top/examples/quadcopter.toml" 2
    ends 7 "$work/dispatch" "$top/examples/overloaded.toml" 1
    echo "examples: the dispatcher was compiled by $1 and run"
}

# same_from_python CALL FILE WORD: calls the module with the text of a file, and compares what it gives with what the program writes.
# shellcheck disable=SC2015 # where the call fails nothing is compared, and that is a failure too
same_from_python() {
    (cd "$top/examples/python" && python3 -c "import sys, furnacelime; text = sys.stdin.read(); sys.stdout.write(furnacelime.$1)" <"$2" >"$work/told") &&
        "$program" "$3" <"$2" | cmp -s - "$work/told" || fail "furnacelime.$1 of Python answers $2 otherwise"
}

# Uses the library from Python, as a shared library that one compiler makes of it.
try_python() {
    FURNACELIME_LIBRARY=$work/libfurnacelime.so PYTHONDONTWRITEBYTECODE=1
    export FURNACELIME_LIBRARY PYTHONDONTWRITEBYTECODE
    "$1" -shared -o "$FURNACELIME_LIBRARY" -Wl,--whole-archive "$library" "$kit/c/liblibc_c.a" -Wl,--no-whole-archive ||
        fail "$1 makes no shared library"
    for module in furnacelime sweep; do
        (cd "$top" && python3 -m doctest "examples/python/$module.py") || fail "$module.py tells other than it says"
    done
    [ "$(python3 "$top/examples/python/sweep.py" 4 5 | wc -l)" -eq 7 ] || fail "sweep.py prints no table"
    python3 "$top/examples/python/sweep.py" 4 none 2>/dev/null && fail "sweep.py takes words for numbers"
    python3 "$top/examples/python/plot.py" "$work/none.svg" </dev/null 2>/dev/null && fail "plot.py draws nothing"
    if python3 -c 'import matplotlib' 2>/dev/null; then
        python3 "$top/examples/python/sweep.py" 2 2 | python3 "$top/examples/python/plot.py" "$work/sweep.svg" || fail "plot.py makes no picture"
        grep -q preemptions "$work/sweep.svg" || fail "the picture of plot.py has no legend"
    else
        echo "examples: no matplotlib is here, so plot.py was tried on faulty input alone"
    fi
    if [ -x "$program" ]; then
        for command in rate tree table trace_text; do same_from_python "$command(text)" "$top/examples/video-wall.toml" "${command%_text}"; done
        same_from_python "follow(text)" "$top/examples/by-hand.tree" follow
        "$program" trace <"$top/examples/video-wall.toml" >"$work/valid.trace"
        same_from_python "check(text)[1]" "$work/valid.trace" check
        same_from_python "draw(text)" "$work/valid.trace" draw
    fi
    echo "examples: furnacelime.py and sweep.py were run"
}

if [ -x "$program" ]; then
    for compiler in $compilers; do try_tables "$compiler"; done
else
    echo "examples: the program isn't built here, so no table was tried"
fi

# The library is built first, unless AS_BUILT is set and there is one.
kit=
command -v rt >/dev/null && kit=$(dirname "$(dirname "$(readlink -f "$(command -v rt)")")")
began=$(date +%s)
if [ -n "$kit" ] && { [ -z "${AS_BUILT-}" ] || [ ! -f "$library" ]; }; then
    timeout 40m sh "$top/build.sh" furnacelime_c >/dev/null 2>&1 && echo "examples: the library for C was built in $((($(date +%s) - began) / 60)) minutes"
fi
if [ -f "$library" ] && [ -n "$kit" ]; then
    for compiler in $compilers; do
        try_rounds "$compiler"
        [ -x "$program" ] && try_commands "$compiler"
        try_executive "$compiler"
        try_dispatcher "$compiler"
    done
    for compiler in g++ clang++; do
        if command -v "$compiler" >/dev/null; then try_plus_plus "$compiler"; else echo "examples: no $compiler is here"; fi
    done
    for compiler in gcc clang; do
        if command -v "$compiler" >/dev/null; then
            for sanitizer in thread address undefined; do try_sanitizer "$compiler" "$sanitizer"; done
        else
            echo "examples: no $compiler is here, so its sanitizers weren't tried"
        fi
    done
    if python3 -c 'import ctypes, tomllib' 2>/dev/null; then
        try_python "${compilers##* }"
    else
        echo "examples: no Python with tomllib (3.11 or later) is here, so the library wasn't tried from Python"
    fi
else
    echo "examples: the library for C could not be built in time, so it wasn't tried"
fi
exit "$failed"
