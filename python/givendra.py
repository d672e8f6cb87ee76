"""Traffic-signal timing by the annex of Ordinance RD-02-21-2, from Python: the C library givendra.

    import givendra
    junction = open("whole_case.junction", "rb").read()
    plan = givendra.work_out(junction)       # plan.file has the plan file's bytes
    givendra.judge(junction, plan.file)      # raises givendra.Refused where the plan is refused

Files are bytes or an object that lends them (bytearray, memoryview), streams are numbered from 1, times are in seconds, flows in E/h. A
function that refuses raises Refused, with the number, the place and the text that include/givendra.h has for it; a number that the library
cannot take raises OverflowError.

The shared library is the file that the environment variable GIVENDRA_LIBRARY names, with its folder, else the one that was installed with
this module, else what the loader finds. Where it is of another release than this module, the import raises ImportError.
"""
import collections
import ctypes
import operator
import os

RELEASE = 2

_TEXTS = {
    0: "nothing is refused",
    1: "the junction file is longer than 16,384 bytes",
    2: "a field of the junction file does not fit",
    3: "a tag of the junction file is not known or not in its order",
    4: "the length of a field of the junction file is wrong",
    5: "a number of the junction file is out of range",
    6: "more than 16 streams, 64 conflict zones or 128 counts",
    7: "a stream does not exist or does not suit",
    8: "no heading, no car, or the phases used are not exactly 1 to some number, 2 or more",
    9: "the stream is no car, or has no usable count in the period",
    11: "a field of the plan file does not fit",
    12: "not the field of the plan file that is due, or bytes after the last",
    13: "a cycle, or a green's start or length, is out of range",
    15: "the stream has less than its needed green",
    16: "the car stream's capacity is below its flow",
    17: "an intergreen time at the conflict zone is not kept",
    21: "the phases' flow ratios, each rounded up, sum to 1 or more",
    22: "no cycle length from the annex's optimum to 180 s works",
    23: "the buffer is too short",
    24: "the offset is not below the cycle",
    25: "the annex's table does not list the stretch or the speed",
    26: "a flow or a saturation flow is not from 1 to 9,999",
    27: "an available waiting length is not above the needed one",
}


def refusal_text(number):
    """A refusal in words."""
    return _TEXTS.get(number, "unknown refusal")


class Refused(Exception):
    """A refusal: its number, the place as include/givendra.h says it, and its text."""

    def __init__(self, number, place):
        super().__init__(number, place)
        self.number = number
        self.place = place
        self.text = refusal_text(number)

    def __str__(self):
        return "refused %d %d: %s" % (self.number, self.place, self.text)


Junction = collections.namedtuple("Junction", "design_day period streams zones counts")
Junction.__doc__ = "What a junction file holds; the design day in days from 1 January 2000 as 0, and the period that is planned, 1 to 4."

Plan = collections.namedtuple("Plan", "file cycle tried")
Plan.__doc__ = "A plan that was worked out: its file's bytes, the cycle, and how many lengths were tried up to it."

Worked = collections.namedtuple("Worked", "cycle tried size")
Worked.__doc__ = "The same where the plan file is in a lent buffer: size is how many bytes it has there."

Delay = collections.namedtuple("Delay", "outcome value level")
Delay.__doc__ = """What is told of a car stream in a plan: the outcome DELAY with the value in seconds, SATURATION with a value of 1 or more, or
NO_RED with the value 0; and the level of service, "A" to "F", of the unrounded value."""
DELAY, SATURATION, NO_RED = 1, 2, 3

Count = collections.namedtuple("Count", "stream count_day file_day flow period")
Count.__doc__ = "One traffic count: the stream, the day of the count, the day of its file (of no effect), the flow, the period of the day, 1 to 4."

Green = collections.namedtuple("Green", "start length")
Green.__doc__ = "The green of a stream in a plan, or of an approach: where in the cycle it starts and how long it lasts."

Approach = collections.namedtuple("Approach", "flow saturation waiting")
Approach.__doc__ = "An approach to a narrowed stretch: flow and saturation flow, and the available waiting length in metres."

Portable = collections.namedtuple("Portable", "clearing_time lost_time cycle first second")
Portable.__doc__ = "Portable signals: t and L of the annex's table, in tenths of a second, the cycle, and the Green of each approach."


# ---- the structs and functions of include/givendra.h

_refusal = [("place", ctypes.c_size_t), ("refusal", ctypes.c_uint8)]


class _JudgeAnswer(ctypes.Structure):
    _fields_ = _refusal


class _PlanAnswer(ctypes.Structure):
    _fields_ = _refusal + [("cycle", ctypes.c_uint16), ("tried", ctypes.c_uint16), ("size", ctypes.c_size_t)]


class _JunctionAnswer(ctypes.Structure):
    _fields_ = _refusal + [("design_day", ctypes.c_uint16), ("period", ctypes.c_uint8), ("streams", ctypes.c_size_t), ("zones", ctypes.c_size_t),
                           ("counts", ctypes.c_size_t)]


class _Figure(ctypes.Structure):
    _fields_ = _refusal + [("value", ctypes.c_uint32)]


class _DelayAnswer(ctypes.Structure):
    _fields_ = _refusal + [("outcome", ctypes.c_uint8), ("level", ctypes.c_uint8), ("value", ctypes.c_double)]


class _CountRecord(ctypes.Structure):
    _fields_ = [("stream", ctypes.c_uint8), ("count_day", ctypes.c_uint16), ("file_day", ctypes.c_uint16), ("flow", ctypes.c_uint16),
                ("period", ctypes.c_uint8)]


class _Approach(ctypes.Structure):
    _fields_ = [("flow", ctypes.c_size_t), ("saturation", ctypes.c_size_t), ("waiting", ctypes.c_size_t)]


class _PortableAnswer(ctypes.Structure):
    _fields_ = _refusal + [("clearing_time", ctypes.c_uint16), ("lost_time", ctypes.c_uint16), ("cycle", ctypes.c_uint16),
                           ("first_start", ctypes.c_uint16), ("first_length", ctypes.c_uint16), ("second_start", ctypes.c_uint16),
                           ("second_length", ctypes.c_uint16)]


_file = [ctypes.c_char_p, ctypes.c_size_t]
_written = [ctypes.POINTER(ctypes.c_uint8), ctypes.c_size_t]
_FUNCTIONS = {
    "release": (ctypes.c_uint32, []),
    "judge": (_JudgeAnswer, _file + _file),
    "work_out": (_PlanAnswer, _file + _written),
    "shift": (_JudgeAnswer, _file + _written + [ctypes.c_size_t]),
    "read_junction": (_JunctionAnswer, _file),
    "intergreen": (_Figure, _file + [ctypes.c_size_t, ctypes.c_size_t]),
    "need": (_Figure, _file + [ctypes.c_size_t, ctypes.c_uint16]),
    "saturation_flow": (_Figure, _file + [ctypes.c_size_t]),
    "flow_ratio": (_Figure, _file + [ctypes.c_size_t]),
    "delay": (_DelayAnswer, _file + _file + [ctypes.c_size_t]),
    "newest_count": (_Figure, [ctypes.POINTER(_CountRecord), ctypes.c_size_t, ctypes.c_size_t, ctypes.c_uint16, ctypes.c_size_t]),
    "portable": (_PortableAnswer, [ctypes.c_size_t, ctypes.c_size_t, _Approach, _Approach]),
}


def _load():
    """The functions by name, of a library whose release is this module's."""
    name = "libgivendra.so.%d" % RELEASE
    installed = os.path.join(os.path.dirname(os.path.abspath(__file__)), "..", "..", "..", "lib", name)
    path = os.environ.get("GIVENDRA_LIBRARY") or (installed if os.path.exists(installed) else name)
    try:
        library = ctypes.CDLL(path)
    except OSError as error:
        raise ImportError("givendra: the shared library is not found; GIVENDRA_LIBRARY may name it (%s)" % error) from None
    functions = {}
    for word, (answer, parameters) in _FUNCTIONS.items():
        try:
            function = library["givendra_" + word]
        except AttributeError:
            raise ImportError("givendra: %s has no function givendra_%s" % (path, word)) from None
        function.restype, function.argtypes = answer, parameters
        functions[word] = function
        if word == "release" and function() != RELEASE:
            raise ImportError("givendra: %s is of release %d, and this module of release %d" % (path, function(), RELEASE))
    return functions


_functions = _load()


def _whole(number, bits, what):
    """A whole number of so many bits: ctypes would cut a larger one."""
    number = operator.index(number)
    if not 0 <= number < 1 << bits:
        raise OverflowError("%s is %d; from 0 to %d is taken" % (what, number, (1 << bits) - 1))
    return number


def _stream(number):
    return _whole(number, 64, "a stream")


def _lent(data):
    """Bytes and their length, as two arguments. A whole number, of which bytes() would make zeros, is refused by memoryview."""
    data = data if isinstance(data, bytes) else memoryview(data).tobytes()
    return data, len(data)


def _lent_to_write(buffer):
    """The memory of a buffer that can be written, and its length."""
    lent = (ctypes.c_uint8 * memoryview(buffer).nbytes).from_buffer(buffer)
    return lent, len(lent)


def _answer(word, *arguments):
    """The answer of a function, where nothing is refused."""
    answer = _functions[word](*arguments)
    if answer.refusal:
        raise Refused(answer.refusal, answer.place)
    return answer


# ---- what the library answers


def release():
    """The release of the shared library."""
    return _functions["release"]()


def read_junction(junction):
    """Reads a junction file: a Junction."""
    answer = _answer("read_junction", *_lent(junction))
    return Junction(*(getattr(answer, name) for name in Junction._fields))


def judge(junction, plan):
    """Judges a plan file for a junction file: returns where the plan is accepted."""
    _answer("judge", *_lent(junction), *_lent(plan))


def work_out_into(junction, buffer):
    """Works out a plan for a junction file and writes its plan file into a buffer, as a bytearray, from the first byte: a Worked. A refusal
    alters no byte."""
    answer = _answer("work_out", *_lent(junction), *_lent_to_write(buffer))
    return Worked(answer.cycle, answer.tried, answer.size)


def work_out(junction):
    """Works out a plan for a junction file: a Plan."""
    buffer = bytearray(_plan_length(16))
    worked = work_out_into(junction, buffer)
    return Plan(bytes(buffer[:worked.size]), worked.cycle, worked.tried)


def shift_in_place(junction, plan, offset):
    """Adds an offset in seconds, below the cycle, to every start of a plan file, modulo the cycle, in the buffer itself, as a bytearray. A refusal
    alters no byte. The plan need not be accepted, and is judged alike before and after."""
    _answer("shift", *_lent(junction), *_lent_to_write(plan), _whole(offset, 64, "an offset"))


def shift(junction, plan, offset):
    """The bytes of a plan file with an offset in seconds, below the cycle, added to every start, modulo the cycle."""
    shifted = bytearray(_lent(plan)[0])
    shift_in_place(junction, shifted, offset)
    return bytes(shifted)


def intergreen(junction, leaving, starting):
    """The intergreen time from the stream that leaves to the one that starts; 0 also where the two share no conflict zone."""
    return _answer("intergreen", *_lent(junction), _stream(leaving), _stream(starting)).value


def need(junction, stream, cycle):
    """The needed green of a stream at a cycle."""
    return _answer("need", *_lent(junction), _stream(stream), _whole(cycle, 16, "a cycle")).value


def saturation_flow(junction, stream):
    """The saturation flow of a car stream."""
    return _answer("saturation_flow", *_lent(junction), _stream(stream)).value


def flow_ratio(junction, stream):
    """The flow ratio of a car stream, in ten-thousandths, rounded up."""
    return _answer("flow_ratio", *_lent(junction), _stream(stream)).value


def delay(junction, plan, stream):
    """Delay and level of service of a car stream in an accepted plan: a Delay."""
    answer = _answer("delay", *_lent(junction), *_lent(plan), _stream(stream))
    return Delay(answer.outcome, answer.value, chr(answer.level))


def newest_count(counts, stream, design_day, period):
    """The flow of a stream in a period by counts, each a Count or five numbers like it: that of the latest count day not after the design day, of
    equal days the larger flow."""
    bits = [(name, 8 * ctypes.sizeof(kind)) for name, kind in _CountRecord._fields_]
    records = [_CountRecord(*(_whole(n, b, name) for n, (name, b) in zip(Count(*count), bits))) for count in counts]
    lent = (_CountRecord * len(records))(*records)
    return _answer("newest_count", lent, len(lent), _stream(stream), _whole(design_day, 16, "a design day"), _whole(period, 64, "a period")).value


def portable(stretch, speed, first, second):
    """Portable signals for a narrowed stretch in metres, a speed in km/h, measured on the site or assumed by the annex, and two approaches, each an
    Approach or three numbers like it: a Portable."""
    lent = [_Approach(*(_whole(n, 64, name) for n, name in zip(Approach(*approach), ("a flow", "a saturation flow", "a waiting length"))))
            for approach in (first, second)]
    answer = _answer("portable", _whole(stretch, 64, "a stretch"), _whole(speed, 64, "a speed"), *lent)
    return Portable(answer.clearing_time, answer.lost_time, answer.cycle, Green(answer.first_start, answer.first_length),
                    Green(answer.second_start, answer.second_length))


# ---- the plan file


def _plan_length(streams):
    """The length of a plan file for so many streams."""
    return 5 + 8 * streams


def green(plan, stream):
    """Reads the green of a stream out of a plan file: a Green, of which both numbers are 0 where the file has none for it."""
    plan, stream = _lent(plan)[0], _stream(stream)
    field = plan[_plan_length(stream - 1):_plan_length(stream)]
    if not 1 <= stream <= 16 or len(field) < 8 or field[:4] != bytes([0x12, 0, 5, stream]):
        return Green(0, 0)
    return Green(256 * field[4] + field[5], 256 * field[6] + field[7])
