"""The proved schedules of Furnacelime, from Python, by its library for C.

    >>> import furnacelime
    >>> three_tasks = open("examples/three-tasks.toml").read()
    >>> furnacelime.trace(three_tasks)
    [(0, 0, 3, 'b'), (0, 3, 9, 'a'), (1, 0, 6, 'c'), (1, 6, 9, 'b')]
    >>> furnacelime.report(furnacelime.trace_text(three_tasks))["preemptions"]
    1
    >>> furnacelime.check(furnacelime.trace_text(three_tasks).replace("row 1 6 9 b", "row 1 5 8 b"))
    (False, 'invalid line 12 processor-overlap\\n')
    >>> furnacelime.rate(open("examples/overloaded.toml").read())
    Traceback (most recent call last):
    furnacelime.Refused: refused 7 Overload total 7 room 6

`rate`, `tree`, `trace_text` and `table` take a task set as the program reads it, text in TOML, and give the program's text; `follow` takes a tree
text, `check`, `report` and `draw` a trace text. What the program refuses raises `Refused`, with its line and its status. `trace` gives the rows of a
set's schedule as tuples, `rows` one by one, and a `Plan` its rounds; `batch` answers for many sets. Times are in ticks, of which a unit has
`Plan(set_text).scale`. The library is sought where the variable FURNACELIME_LIBRARY says, or beside this file, or where it was installed with it.
"""
import ctypes
import os
import threading

__version__ = "1.0.0"

_NO_MEMORY, _OVER, _NO_TASK, _PROCESSORS = 5, 65, 2**32 - 1, 32
_COMMANDS = ["rate", "tree", "trace", "trace_met", "trace_wrap", "table", "check", "follow", "draw"]  # numbered from 1


def _load():
    """The library: where the variable says, beside this file, in a folder above it, or wherever the system's loader finds it."""
    folder = os.path.dirname(os.path.abspath(__file__))
    places = [os.path.join(folder, "libfurnacelime.so")]
    while os.path.dirname(folder) != folder:
        folder = os.path.dirname(folder)
        places.append(os.path.join(folder, "libfurnacelime.so.1"))
    name = os.environ.get("FURNACELIME_LIBRARY") or next(filter(os.path.isfile, places), "libfurnacelime.so.1")
    try:
        return ctypes.CDLL(name)
    except OSError as fault:
        raise ImportError(f"the library for C can't be loaded, and FURNACELIME_LIBRARY may say where it is: {fault}") from None


_library = _load()
_one_call = threading.Lock()  # no two threads may be inside the library at once


class _Handle(ctypes.Structure):
    _fields_ = [("at", ctypes.c_void_p)]


class _Question(ctypes.Structure):
    _fields_ = [("command", ctypes.c_uint32), ("first", ctypes.c_uint64), ("units", ctypes.c_uint64)]


class _Ticks(ctypes.Structure):
    _fields_ = [("high", ctypes.c_uint64), ("low", ctypes.c_uint64)]

    def __int__(self):
        return self.high << 64 | self.low


class _About(ctypes.Structure):
    _fields_ = [("scale", _Ticks), ("end", _Ticks), ("processors", ctypes.c_uint32)]


class _Round(ctypes.Structure):
    _fields_ = [("start", _Ticks), ("end", _Ticks)]


def _export(name, result, *arguments):
    export = getattr(_library, "furnacelime_" + name)
    export.restype, export.argtypes = result, arguments
    return export


_pointer, _bytes, _size, _status = ctypes.POINTER, ctypes.c_char_p, ctypes.c_size_t, ctypes.c_uint8
_ask = _export("ask", _status, _pointer(_Question), _bytes, _size, _pointer(_Handle), _pointer(_size))
_tell = _export("tell", _status, _Handle, _bytes, _size)
_open = _export("open", _status, _bytes, _size, _pointer(_Handle), _pointer(_About))
_next = _export("next", _status, _Handle, _pointer(_Handle), _pointer(ctypes.c_uint32), _size, _pointer(_Round))
_close = _export("close", None, _Handle)


class Refused(Exception):
    """What the program refuses, with its status and its line."""

    def __init__(self, status, line=""):
        super().__init__(line.rstrip() or f"refused with status {status}")
        self.status = status


def _answer(command, text, first=0, units=0):
    """The status of a command, which is 0 or 1, and its text."""
    given, kept, length = text.encode(), _Handle(), _size()
    with _one_call:
        status = _ask(_Question(_COMMANDS.index(command) + 1, first, units), given, len(given), kept, length)
        told = ctypes.create_string_buffer(length.value + 1)
        if kept.at:
            _tell(kept, told, length.value)
    if status > 1:
        raise Refused(status, told.raw[:-1].decode())
    return status, told.raw[:-1].decode()


def rate(set_text):
    """The scale, the rates, their total and the room."""
    return _answer("rate", set_text)[1]


def tree(set_text):
    """The tree of servers and duals."""
    return _answer("tree", set_text)[1]


def table(set_text):
    """The schedule as C source."""
    return _answer("table", set_text)[1]


def trace_text(set_text, kind="trace"):
    """The trace text of the schedule; of kind `trace_met` with when each period was done, of `trace_wrap` that of the wrapped schedule."""
    return _answer(kind, set_text)[1]


def rows(set_text, kind="trace"):
    """The rows of the schedule one by one, processor by processor: (processor, start, end, task), with None where it is idle."""
    for line in trace_text(set_text, kind).split("\n"):
        if line.startswith("row "):
            _, processor, start, end, name = line.split(" ")
            yield int(processor), int(start), int(end), None if name == "-" else name


def trace(set_text):
    """All rows of the schedule, in a list."""
    return list(rows(set_text))


def names(set_text):
    """The names of a set's tasks, in order."""
    return [line.split(" ")[1] for line in rate(set_text).split("\n") if line.startswith("rate ")]


def batch(set_texts):
    """For each set whether it fits, with the ticks of a unit and the levels of its tree, or the status and the line of its refusal.

    >>> batch(["processors = 1\\nhorizon = 1", "processors = 1"])
    [{'fits': True, 'scale': 1, 'levels': 1}, {'fits': False, 'status': 6, 'line': 'refused 6 Missing top horizon'}]
    """
    return [_verdict(set_text) for set_text in set_texts]


def _verdict(set_text):
    try:
        told = dict(line.split(" ", 1) for line in tree(set_text).splitlines() if line.startswith(("scale ", "levels ")))
    except Refused as refused:
        if refused.status == _NO_MEMORY:
            raise
        return {"fits": False, "status": refused.status, "line": str(refused)}
    return {"fits": True, "scale": int(told["scale"]), "levels": int(told["levels"])}


def follow(tree_text):
    """The trace text of the schedule of a tree."""
    return _answer("follow", tree_text)[1]


def check(trace_text):
    """Whether the rows of a trace text are a valid schedule of its set, and the report, or the line that says where they aren't and why."""
    status, text = _answer("check", trace_text)
    return status == 0, text


def report(trace_text):
    """The report of a trace text as data; of one that isn't valid the line at fault and its kind.

    >>> three_tasks = open("examples/three-tasks.toml").read()
    >>> told = report(trace_text(three_tasks))
    >>> told["valid"], told["migrations"], told["response"]
    (True, 1, {'a': 9, 'b': 9, 'c': 6})
    >>> report(trace_text(three_tasks).replace("row 1 6 9 b", "row 1 5 8 b"))
    {'valid': False, 'line': 12, 'kind': 'processor-overlap'}
    """
    valid, text = check(trace_text)
    words = [line.split(" ") for line in text.splitlines()]
    if not valid:
        return {"valid": False, "line": int(words[0][2]), "kind": words[0][3]}
    told = {"valid": True, "response": {}, "chart": []}
    for word, *rest in words[1:]:
        if word == "response":
            told[word][rest[0]] = int(rest[1])
        elif word == "chart":
            told[word].append(rest[1])
        else:
            told[word] = int(rest[0])
    return told


def draw(trace_text, first=0, units=0):
    """A picture of a trace text as SVG, from this unit on, of at most so many units; 0 for as many as are easily looked at."""
    return _answer("draw", trace_text, first, units)[1]


class Plan:
    """The schedule of a task set: iterate over it for its rounds, (start, end, the task on each processor or None).

    >>> list(Plan("processors = 2\\nhorizon = 3\\n"))
    [(0, 3, [None, None])]
    >>> Plan("processors = 2\\nhorizon = 0\\n")
    Traceback (most recent call last):
    furnacelime.Refused: refused 6 BadHorizon 0
    """

    def __init__(self, set_text):
        self._set = set_text.encode()
        self._close(self._open())
        self.names = names(set_text)

    def _open(self):
        plan, about = _Handle(), _About()
        with _one_call:
            status = _open(self._set, len(self._set), plan, about)
        if status:
            rate(self._set.decode())  # has the line of the refusal
            raise Refused(status)
        self.scale, self.end, self.processors = int(about.scale), int(about.end), about.processors
        return plan

    @staticmethod
    def _close(plan):
        with _one_call:
            _close(plan)

    def __iter__(self):
        plan, told, tasks = self._open(), _Round(), (ctypes.c_uint32 * _PROCESSORS)()
        try:
            while True:
                with _one_call:
                    status = _next(plan, plan, tasks, _PROCESSORS, told)
                if status == _OVER:
                    return
                names = [None if task == _NO_TASK else self.names[task] for task in tasks[: self.processors]]
                yield int(told.start), int(told.end), names
        finally:
            self._close(plan)
