#!/bin/sh
# Tries the converters: each makes of its sample the set that stands beside it, which the program takes; faulty input is refused with its status, a line,
# and nothing written; and the trace for Perfetto is JSON with a box for each row and as long as the row, none over another on a track.
top=$(cd "$(dirname "$0")/../.." && pwd)
program=$top/crates/furnacelime/out/furnacelime
convert=$top/examples/convert
samples=$convert/samples
PYTHONDONTWRITEBYTECODE=1
export PYTHONDONTWRITEBYTECODE
failed=0
fail() { echo "convert: $*"; failed=1; }

command -v python3 >/dev/null || { echo "convert: there is no python3, so the converters weren't tried"; exit 0; }
work=$(mktemp -d) || exit 2
trap 'rm -rf "$work"' EXIT

# made CONVERTER SAMPLE SET WORDS..: what it makes of its sample.
made() {
    converter=$1 sample=$2 set=$3
    shift 3
    python3 "$convert/$converter" "$@" <"$samples/$sample" 2>/dev/null | cmp -s - "$samples/$set" || fail "$converter makes another set of $sample"
    [ ! -x "$program" ] || "$program" rate <"$samples/$set" >/dev/null || fail "the set of $sample is refused"
}

# refused STATUS TEXT CONVERTER WORDS..: faulty input.
refused() {
    wanted=$1 text=$2 converter=$3
    shift 3
    printf %b "$text" | python3 "$convert/$converter" "$@" >"$work/told" 2>"$work/line"
    status=$?
    { [ "$status" = "$wanted" ] && [ ! -s "$work/told" ] && [ -s "$work/line" ] && ! grep -q Traceback "$work/line"; } ||
        fail "$converter $* on '$text' ends with $status: $(tail -n 1 "$work/line")"
}

made from_csv.py tasks.csv tasks.toml --processors 2 --horizon 5000
made from_rt_app.py rt-app.json rt-app.toml --processors 2
made from_simso.py simso.xml simso.toml

head='name,work,period\n'
refused 6 "${head}a,1,2\n" from_csv.py
refused 6 "${head}a,1,2\n" from_csv.py --processors 33
refused 2 "${head}a,1,2\n" from_csv.py --processors two
refused 6 '' from_csv.py --processors 1
refused 6 'name,work\na,1\n' from_csv.py --processors 1
refused 6 "${head}a,1\n" from_csv.py --processors 1
refused 6 "${head}a,one,2\n" from_csv.py --processors 1
refused 6 "${head}a,0,2\n" from_csv.py --processors 1
refused 6 "${head}a,0.5,2\n" from_csv.py --processors 1
refused 6 "${head}a,3,2\n" from_csv.py --processors 1
refused 6 "${head}a,1,4294967291\nb,1,4294967279\n" from_csv.py --processors 1
refused 6 '\0374' from_csv.py --processors 1
refused 6 '{' from_rt_app.py --processors 1
refused 6 '[]' from_rt_app.py --processors 1
refused 6 '{"tasks": {"a": {"run": 1, "run": 2, "timer": {"period": 9}}}}' from_rt_app.py --processors 1
refused 6 '{"tasks": {"a": {"run": 1, "sleep": 2}}}' from_rt_app.py --processors 1
refused 6 '{"tasks": {"a": {"run": 1}}}' from_rt_app.py --processors 1
refused 6 '{"tasks": {"a": {"phases": {"p": {}, "q": {}}}}}' from_rt_app.py --processors 1
refused 6 '{"tasks": {"a": []}}' from_rt_app.py --processors 1
refused 6 '{"tasks": {"a": {"instance": 300, "run": 1, "timer": {"period": 9}}}}' from_rt_app.py --processors 1
refused 6 '{"tasks": {"a": {"dl-runtime": 1, "dl-period": 9, "dl-deadline": 4}}}' from_rt_app.py --processors 1
refused 6 '{"tasks": {"a": {"run": 1, "timer": {"period": 9}, "dl-deadline": 10}}}' from_rt_app.py --processors 1
refused 6 '<simulation' from_simso.py
refused 6 '<other/>' from_simso.py
refused 6 '<simulation duration="1"/>' from_simso.py
simso() { refused 6 "<simulation duration=\"1000000\"><processors><processor/></processors><tasks><task name=\"a\" $1/></tasks></simulation>" from_simso.py; }
simso 'period="1"'
simso 'period="1" WCET="x"'
simso 'period="1" WCET="-1"'
simso 'period="1" WCET="1" deadline="2"'
simso 'period="1" WCET="1" deadline="0"'
simso 'period="4" WCET="3" deadline="3"'
simso 'period="1" WCET="1" task_type="Sporadic"'
refused 6 'run-tree 1\n' to_perfetto.py
refused 6 'run-trace 1\nscale 1\ntask a 1 1\nrow 0 0 1 b\n' to_perfetto.py
refused 6 'run-trace 1\nscale 1\n' to_perfetto.py --unit 0
python3 "$convert/from_simso.py" <"$samples/simso.xml" >/dev/full 2>"$work/line"
{ [ $? = 4 ] && ! grep -q Traceback "$work/line"; } || fail "a set that can't be written ends otherwise: $(tail -n 1 "$work/line")"

if [ -x "$program" ]; then
    for set in three-tasks video-wall quadcopter; do
        "$program" trace <"$top/examples/$set.toml" >"$work/trace"
        python3 "$convert/to_perfetto.py" --unit 1000 <"$work/trace" >"$work/json" || fail "the trace of $set isn't converted"
        python3 - "$work/trace" "$work/json" <<'END' || fail "the trace of $set is converted otherwise"
import collections
import json
import sys

lines = [line.split() for line in open(sys.argv[1])]
scale = next(int(line[1]) for line in lines if line[0] == "scale")
rows = [(int(line[1]), int(line[2]) * 1000 / scale, int(line[3]) * 1000 / scale, line[4]) for line in lines if line[0] == "row" and line[4] != "-"]
events = json.load(open(sys.argv[2]))["traceEvents"]
tracks = {(event["pid"], event.get("tid")): event["args"]["name"] for event in events if event["ph"] == "M"}
boxes = collections.defaultdict(list)
for event in events:
    if event["ph"] == "X":
        boxes[event["pid"], event["tid"]].append((event["ts"], event["ts"] + event["dur"], event["name"]))
assert sorted(boxes) == sorted(set(boxes)) and all(track in tracks for track in boxes)
of_processors = sorted((tid, *box) for (pid, tid), track in boxes.items() if pid == 1 for box in track)
assert len(of_processors) == len(rows)
for row, box in zip(sorted(rows), of_processors):
    assert row[0] == box[0] and row[3] == box[3] and abs(row[1] - box[1]) < 0.002 and abs(row[2] - box[2]) < 0.002, (row, box)
assert sum(len(track) for (pid, _), track in boxes.items() if pid == 2) == len(rows)
for track in boxes.values():
    track.sort()
    assert all(first[1] <= second[0] + 0.0001 for first, second in zip(track, track[1:]))
END
    done
    echo "convert: the converters were tried, and their sets taken by the program"
else
    echo "convert: the program isn't built here, so the converters were tried without it"
fi
exit "$failed"
