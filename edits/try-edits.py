#!/usr/bin/env python3
"""Tries wrong bodies that stand as data: the prover has to refuse each in its own crate.

    try-edits.py TOP EDITS [--alone] [--apply] [CRATE..]

TOP is a checkout or a clone whose libraries are built: by `sh build.sh` (and `sh build.sh furnacelime_c` for the crates of the library for C),
or by the kit's `rt`, which keeps that of a crate in its out/ when a crate above it is checked. EDITS has a folder for each crate with its edits,
EDITS/CRATE/NAME.edit, in the form of crates/CRATE/must-fail. Nothing in TOP is changed: each crate is tried on a copy, and what its check kept is thrown
away at the end. It is no gate.

How: edits of different functions don't touch one another's proofs, since no contract changes. So all edits of a crate go into one
copy, at most one for each function, and one check tells of each function whether it is proved; edits of one function come one
after the other, each over what the check before kept. A crate's edits cost about as much as the crate's own check. With --alone each
edit is tried by itself. With --apply nothing is checked: it only tells which edits can't be applied, and wants no libraries.

Of each edit it tells what came of it:
    refused       a goal of the function is not proved: the clauses that fail are named
    by the proof  the written proof names what the edit took away, and nothing else failed: look at it by hand
    NOT REFUSED   the function is still proved: no contract of its own crate says that this body is wrong
    BAD EDIT      it can't be applied, compiled or read
The status is 0 where each is refused.
"""
import os
import re
import shutil
import subprocess
import sys
import tempfile
import time


class Unbuilt(Exception):
    """These libraries aren't there."""


class Top:
    def __init__(self, top):
        self.top = os.path.abspath(top)
        rt = subprocess.run(["sh", "-c", "command -v rt"], stdout=subprocess.PIPE, text=True).stdout.strip()
        if not rt:
            sys.exit("the command rt of the kit isn't there")
        self.kit = os.path.dirname(os.path.dirname(os.path.realpath(rt)))
        self.below, self.static = {}, set()
        with open(f"{self.top}/crates.txt", encoding="utf-8") as lines:
            for line in lines:
                if found := re.match(r"([a-z]\w*)( [^:]*)?:(.*)", line):
                    self.below[found[1]] = found[3].split()
                    if "staticlib" in (found[2] or ""):
                        self.static.add(found[1])

    def folder(self, crate):
        return f"{self.top}/crates/{crate}"

    def library_in(self, name):
        """The folder of a crate's library, by whatever it was built; None where it isn't."""
        own = [f"{self.folder(name)}/out/rlib", f"{self.top}/.git/build"] if os.path.isdir(self.folder(name)) else [f"{self.kit}/rlibs"]
        return next((it for it in own if os.path.isdir(f"{it}/{name}.rlib")), None)

    def all_below(self, crate):
        found, left = [], list(self.below[crate])
        while left:
            if (name := left.pop()) not in found:
                found.append(name)
                left += self.below.get(name, [])
        return found

    def words(self, crate):
        words = ["--crate-name", crate, "--extern", f"std={self.kit}/rlibs/std.rlib"]
        if missing := [it for it in self.all_below(crate) if not self.library_in(it)]:
            raise Unbuilt(" ".join(missing))
        for name in self.below[crate]:
            words += ["--extern", f"{name}={self.library_in(name)}/{name}.rlib"]
        for at in dict.fromkeys([f"{self.kit}/rlibs", *(self.library_in(it) for it in self.all_below(crate))]):
            words += ["-L", f"dependency={at}"]
        words += ["--links", f"{crate}="]
        words += ["--antt-project", f"{self.kit}/rattle/logic/antt-project.json", "--logic-built", f"{self.kit}/logic_built"]
        return words + (["--crate-type", "staticlib"] if crate in self.static else [])

    def check(self, crate, texts, kept):
        with tempfile.TemporaryDirectory(prefix="edits-") as room:
            for part in ("src", "specs", "proofs"):
                if os.path.isdir(f"{self.folder(crate)}/{part}"):
                    shutil.copytree(f"{self.folder(crate)}/{part}", f"{room}/{part}")
            for path, text in texts.items():
                with open(f"{room}/{path}", "w", encoding="utf-8") as it:
                    it.write(text)
            root = "src/main.rt" if os.path.exists(f"{room}/src/main.rt") else "src/lib.rt"
            ran = subprocess.run(
                [f"{self.kit}/bin/rattle", "check", root, *self.words(crate), "--jobs", "1", "--incremental", kept],
                cwd=room, stdin=subprocess.DEVNULL, stdout=subprocess.PIPE, stderr=subprocess.STDOUT, text=True, errors="replace")
            return ran.returncode, ran.stdout


def pairs_of(text):
    path = old = None
    for line in text.split("\n"):
        if line.startswith("file: "):
            path = line[6:].strip()
        elif line.startswith("old: "):
            old = line[5:]
        elif line.startswith("new:"):
            yield path, old, line[4:].removeprefix(" ")


def function_at(text, place):
    """The name of the function that a place in a source is in, and its lines, counted from 1, with those of its attributes."""
    name, begin, count = None, 0, text[:place].count("\n") + 1
    lines = text.split("\n")
    for i, line in enumerate(lines, 1):
        if (found := re.match(r"\s*(?:pub(?:\(crate\))? )?(?:unsafe )?(?:extern \"C\" )?fn (\w+)", line)):
            head = i
            while head > 1 and lines[head - 2].lstrip().startswith(("#[", "//")):
                head -= 1
            if head > count:
                return name, begin, head - 1
            name, begin = found[1], head
    return name, begin, len(lines)


def applied(texts, folder, edit):
    """The texts with the edit, and the functions that it changes; or why it can't be applied."""
    texts, changed = dict(texts), []
    with open(edit, encoding="utf-8") as it:
        pairs = list(pairs_of(it.read()))
    if not pairs:
        return None, "it has no pair"
    for path, old, new in pairs:
        if not path.startswith("src/"):
            return None, "it changes no code"
        if not os.path.isfile(f"{folder}/{path}"):
            return None, f"there is no {path}"
        with open(f"{folder}/{path}", encoding="utf-8") as it:
            own = it.read()
        text = texts.get(path, own)
        if text.count(old) != 1:
            return None, f"its text is in {path} {text.count(old)} times"
        where = own.find(old)
        changed.append((path, *function_at(own if where >= 0 else text, where if where >= 0 else text.find(old))))
        texts[path] = text.replace(old, new)
    return texts, changed


GONE = re.compile(r"has no `|that can be named from here|has no field|is not in scope|was not admitted|^module `|^record `")


def told_of(told, changed):
    """What a check told of the functions that an edit changes; of all, where it changes what stands in none."""
    failed, gone, proved = [], [], False
    for path, name, begin, end in changed:
        for found in re.finditer(r"^note: (src/\S+?):(\d+):\d+: it is not proved that (.*?)(?:;.*)?$", told, re.M):
            if name is None or (found[1] == path and begin <= int(found[2]) <= end):
                failed.append(found[3])
        for found in re.finditer(rf"^\./proofs/(?:\S+/)?{name or '[^/]+'}/\S+: error: `([^`]*)`: (.*)$", told, re.M):
            (gone if GONE.search(found[2]) else failed).append(found[1])
        proved = proved or bool(re.search(rf"^fn \S*\b{name}: proved(, may .*)?$" if name else "^logic=proved", told, re.M))
    if failed:
        return "refused", "; ".join(dict.fromkeys(failed))
    if gone:
        return "by the proof", "; ".join(dict.fromkeys(gone))
    if proved:
        return "NOT REFUSED", ""
    return "UNKNOWN", " ".join(re.findall(rf"^fn \S*\b{changed[0][1]}: .*$", told, re.M))[:200]


def apply_each(top, edits, crates):
    """Tells which edits can't be applied, and returns the status."""
    well = True
    for crate in crates:
        for edit in sorted(it for it in os.listdir(f"{edits}/{crate}") if it.endswith(".edit")):
            made, why = applied({}, top.folder(crate), f"{edits}/{crate}/{edit}")
            if made is None:
                print(f"{crate}/{edit}: BAD EDIT: {why}")
                well = False
    return 0 if well else 1


def main():
    words = [it for it in sys.argv[1:] if it not in ("--alone", "--apply")]
    alone = "--alone" in sys.argv
    if len(words) < 2:
        sys.exit(__doc__)
    top, edits = Top(words[0]), os.path.abspath(words[1])
    crates = words[2:] or [it for it in top.below if os.path.isdir(f"{edits}/{it}")]
    if "--apply" in sys.argv:
        sys.exit(apply_each(top, edits, crates))
    well = True
    for crate in crates:
        todo = sorted(it for it in os.listdir(f"{edits}/{crate}") if it.endswith(".edit"))
        with tempfile.TemporaryDirectory(prefix="kept-") as room:
            # what a check of the kit's `rt` kept serves as a beginning
            kept, start = f"{room}/kept", f"{top.folder(crate)}/out/incremental"
            shutil.copytree(start, kept) if os.path.isdir(start) else os.mkdir(kept)
            while todo:
                texts, now, later, used = {}, [], [], set()
                for edit in todo:
                    made, changed = applied(texts, top.folder(crate), f"{edits}/{crate}/{edit}")
                    if made is None:
                        # it may be that an earlier edit of this turn stands in its place
                        made, why = applied({}, top.folder(crate), f"{edits}/{crate}/{edit}")
                        if made is None:
                            print(f"{crate}/{edit}: BAD EDIT: {why}", flush=True)
                            well = False
                        else:
                            later.append(edit)
                        continue
                    names = {it[:2] for it in changed}
                    # what stands in no function, as a constant does, may fail any: it goes alone
                    if now and (alone or names & used or any(name is None for _, name in names | used)):
                        later.append(edit)
                        continue
                    used |= names
                    texts = made
                    now.append((edit, changed))
                if not now:
                    break
                begun = time.time()
                try:
                    status, told = top.check(crate, texts, kept)
                except Unbuilt as missing:
                    print(f"{crate}: not tried, since these aren't built: {missing} (sh build.sh {crate})", flush=True)
                    well = False
                    break
                took = time.time() - begun
                if re.search(r"\berror\[[\w-]+\]", told):
                    if len(now) > 1:
                        # the one that doesn't compile is found by trying each alone
                        alone = True
                        continue
                    print(f"{crate}/{now[0][0]}: BAD EDIT: it doesn't compile\n{told[:800]}", flush=True)
                    well, todo = False, later
                    continue
                for edit, changed in now:
                    what, why = told_of(told, changed)
                    well = well and what == "refused"
                    print(f"{crate}/{edit}: {what}: {why}", flush=True)
                print(f"# {crate}: {len(now)} edits in one check, {took:.0f} s, status {status}", flush=True)
                todo = later
    sys.exit(0 if well else 1)


main()
