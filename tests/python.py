"""python.py LIBRARY: holds the Python module to crates/stored_cases, whose answers come from the papers, to tests/header.txt, and to
include/givendra.h. LIBRARY is a shared library of the next release, which the module must not take. The module is found by PYTHONPATH."""
import concurrent.futures
import ctypes
import os
import pathlib
import re
import struct
import subprocess
import sys

import givendra

root = pathlib.Path(__file__).resolve().parent.parent
failed = False


def same(what, got, expected):
    """Tells a difference."""
    global failed
    if got != expected:
        print("python: %s: %r, and not %r" % (what, got, expected))
        failed = True


def outcome(function, *arguments):
    """What a function answers, or the refusal's number and place, or the name of the error that it raises."""
    try:
        return function(*arguments)
    except givendra.Refused as refused:
        return "refused %d %d" % (refused.number, refused.place)
    except (OverflowError, TypeError) as error:
        return type(error).__name__


# ---- the stored cases


def file_of(words):
    """A case's bytes: in hexadecimal, and `*N` for the last byte N times."""
    data = bytearray()
    for word in words.split():
        digits, _, times = word.partition("*")
        part = bytes.fromhex(digits)
        data += part + part[-1:] * (int(times or 1) - 1)
    return bytes(data)


def told_reading(words, _):
    held = outcome(givendra.read_junction, file_of(words))
    return held if isinstance(held, str) else "taken %d %d %d" % held[2:]


def told_judgement(words, junction):
    return outcome(givendra.judge, file_of(junction), file_of(words)) or "accepted"


def told_delay(words, junction):
    stream, _, words = words.strip().partition(" ")
    told = outcome(givendra.delay, file_of(junction), file_of(words), int(stream))
    if isinstance(told, str):
        return told
    word = {givendra.DELAY: "delay", givendra.SATURATION: "saturation", givendra.NO_RED: "no red"}[told.outcome]
    bits = struct.pack(">d", told.value).hex()
    return "%s %s" % (word if told.outcome == givendra.NO_RED and told.value == 0 else word + " " + bits, told.level)


def told_shift(words, junction):
    """A refusal alters no byte. Without a lent buffer the answer is the same."""
    offset, _, words = words.strip().partition(" ")
    before = file_of(words)
    lent = bytearray(before)
    refused = outcome(givendra.shift_in_place, file_of(junction), lent, int(offset))
    whole = outcome(givendra.shift, file_of(junction), before, int(offset))
    if whole != (refused or bytes(lent)):
        return "without a lent buffer %s" % (whole,)
    return "%s %s" % (refused, "kept" if lent == before else "spoilt") if refused else "shifted " + lent.hex()


def told_plan(words, _):
    """The bytes behind the lent ones, and of these all behind the plan file, stay as they were. Working out without a lent buffer answers alike."""
    room, _, words = words.strip().partition(" ")
    memory = bytearray(b"\xa5" * 300)
    junction = file_of(words)
    worked = outcome(givendra.work_out_into, junction, memoryview(memory)[:int(room)])
    refused = isinstance(worked, str)
    size = 0 if refused else worked.size
    whole = outcome(givendra.work_out, junction)
    if worked != "refused 23 0" and whole != (worked if refused else (memory[:size], worked.cycle, worked.tried)):
        return "without a lent buffer %s" % (whole,)
    text = worked if refused else "cycle %d tried %d plan %s" % (worked.cycle, worked.tried, memory[:size].hex())
    return text + (" kept" if memory[size:] == b"\xa5" * (300 - size) else " spoilt")


def told_portable(words, _):
    numbers = [int(word) for word in words.split()]
    told = outcome(givendra.portable, numbers[0], numbers[1], givendra.Approach(*numbers[2:5]), numbers[5:8])
    if isinstance(told, str):
        return told
    return "t %d L %d cycle %d 1 %d %d 2 %d %d" % (told[:3] + told.first + told.second)


def answered(case):
    """What is printed for a line."""
    line, junction = case
    if not line or line.startswith("#"):
        return line
    head, _, words = line.partition(":")
    told = {"read": told_reading, "judge": told_judgement, "delay": told_delay, "shift": told_shift, "plan": told_plan,
            "portable": told_portable}[head.split()[0]]
    return "%s: %s" % (head, told(words, junction))


def stored_cases():
    """By four threads at once; answers how many cases there are."""
    folder = root / "crates" / "stored_cases"
    cases, junction = [], ""
    for line in (folder / "stdin").read_text().split("\n")[:-1]:
        if line.startswith("junction:"):
            junction = line.partition(":")[2]
        else:
            cases.append((line, junction))
    with concurrent.futures.ThreadPoolExecutor(4) as pool:
        answers = list(pool.map(answered, cases))
    expected = (folder / "stdout").read_text().split("\n")[:-1]
    same("the stored cases' lines", len(answers), len(expected))
    for answer, line in zip(answers, expected):
        same("a stored case", answer, line)
    return sum(": " in line and not line.startswith("#") for line in expected)


# ---- tests/header.txt


def header_lines():
    """The figures and greens of the whole case and the texts, as tests/header.txt has them."""
    junction, plan = ((root / "examples" / name).read_bytes() for name in ("whole_case.junction", "whole_case.plan"))
    counted = {"figure": 0, "green": 0, "text": 0}
    for line in (root / "tests" / "header.txt").read_text().splitlines():
        figure = re.fullmatch(r"(\w+), the whole case, (.*): refusal (\d+) place (\d+) value (\d+)", line)
        green = re.fullmatch(r"green, the plan, stream (\d+): start (\d+) length (\d+)", line)
        text = re.fullmatch(r"text (\d+): (.*)", line)
        if figure:
            word, asked, refusal, place, value = figure.groups()
            expected = int(value) if refusal == "0" else "refused %s %s" % (refusal, place)
            counted["figure"] += 1
            same(line, outcome(getattr(givendra, word), junction, *map(int, re.findall(r"\d+", asked))), expected)
        if green:
            stream, start, length = map(int, green.groups())
            counted["green"] += 1
            same(line, givendra.green(plan, stream), (start, length))
        if text:
            counted["text"] += 1
            same(line, givendra.refusal_text(int(text[1])), text[2])
    same("lines of tests/header.txt that are asked for", all(counted.values()), True)


# ---- include/givendra.h


def declarations():
    """Release, structs and functions are the header's; the texts of the header are those of tests/header.txt."""
    text = (root / "include" / "givendra.h").read_text()
    block = text.partition('\nextern "C" {\n')[2].partition("\n}\n")[0]
    same("RELEASE", givendra.RELEASE, int(re.search(r"#define GIVENDRA_RELEASE (\d+)", text)[1]))
    types = {"size_t": ctypes.c_size_t, "uint8_t": ctypes.c_uint8, "uint16_t": ctypes.c_uint16, "uint32_t": ctypes.c_uint32, "double": ctypes.c_double,
             "const uint8_t *": ctypes.c_char_p, "uint8_t *": ctypes.POINTER(ctypes.c_uint8)}
    for name, members in re.findall(r"^struct (\w+) \{\n(.*?)^\};", block, re.DOTALL | re.MULTILINE):
        declared = getattr(givendra, "_" + name.replace("givendra", "").title().replace("_", ""), None)
        same(name, declared and declared._fields_, [(member, types[kind]) for kind, member in re.findall(r"^ +(\w+) (\w+);", members, re.MULTILINE)])
        types["struct " + name] = declared
        types["const struct %s *" % name] = ctypes.POINTER(declared)
    functions = {}
    for answer, name, words in re.findall(r"^(\w.*) givendra_(\w+)\((.*)\);$", block, re.MULTILINE):
        kinds = [re.match(r".*[ *](?=\w+$)", word)[0] for word in words.split(", ") if word != "void"]
        functions[name] = (types[answer], [types[kind if "*" in kind else kind.strip()] for kind in kinds])
    same("the functions", givendra._FUNCTIONS, functions)
    texts = {int(number): words for number, words in re.findall(r'case (\d+): return "(.*)";', text)}
    same("the texts", givendra._TEXTS, texts)


# ---- the module's own


def own():
    """What a caller may hand in, what it may not, and what a refusal has."""
    junction = (root / "examples" / "whole_case.junction").read_bytes()
    same("the release", givendra.release(), givendra.RELEASE)
    same("what the whole case holds", givendra.read_junction(junction), (9000, 1, 2, 1, 1))
    for kind in (bytearray, memoryview):
        same("a junction file as a " + kind.__name__, givendra.intergreen(kind(junction), 1, 2), 5)
    for data in ("text", 60, None):
        same("%r as a junction file" % data, outcome(givendra.read_junction, data), "TypeError")
    for stream, expected in ((-1, "OverflowError"), (1 << 64, "OverflowError"), (1.0, "TypeError"), ((1 << 64) - 1, "refused 7 18446744073709551615")):
        same("stream %r" % stream, outcome(givendra.need, junction, stream, 50), expected)
    for cycle in (-1, 65536 + 50):
        same("cycle %d" % cycle, outcome(givendra.need, junction, 1, cycle), "OverflowError")
    plan = (root / "examples" / "whole_case.plan").read_bytes()
    for stream, expected in ((-1, "OverflowError"), (1 << 64, "OverflowError"), (1.0, "TypeError"), ((1 << 64) - 1, "refused 9 18446744073709551615")):
        same("the delay of stream %r" % stream, outcome(givendra.delay, junction, plan, stream), expected)
    same("a buffer that cannot be written", outcome(givendra.work_out_into, junction, bytes(21)), "TypeError")
    for offset, expected in ((-1, "OverflowError"), (1 << 64, "OverflowError"), (1.0, "TypeError"), ((1 << 64) - 1, "refused 24 0"), (0, plan)):
        same("a shift by %r" % offset, outcome(givendra.shift, junction, plan, offset), expected)
    same("a plan that cannot be written", outcome(givendra.shift_in_place, junction, plan, 1), "TypeError")
    same("a plan in a memoryview", givendra.green(givendra.shift(memoryview(junction), memoryview(plan), 10), 2), (0, 6))
    same("a green of no stream", outcome(givendra.green, b"", -1), "OverflowError")
    approach = (400, 1800, 67)
    same("portable signals", givendra.portable(100, 30, approach, (380, 1800, 63)), (144, 328, 99, (0, 33), (51, 30)))
    for arguments, expected in (((-1, 30, approach, approach), "OverflowError"), ((100, 1 << 64, approach, approach), "OverflowError"),
                                ((100, 30, (400, 1800, 1 << 64), approach), "OverflowError"), ((100, 30, approach, (400, 1800)), "TypeError"),
                                ((100, 30, (400, 1800, 67.5), approach), "TypeError"), (((1 << 64) - 1, 30, approach, approach), "refused 25 0"),
                                ((100, 30, ((1 << 64) - 1, 1800, 67), approach), "refused 26 0")):
        same("portable signals of %r" % (arguments,), outcome(givendra.portable, *arguments), expected)
    same("a waiting length of 2 to the 64 less 1", givendra.portable(100, 30, (400, 1800, (1 << 64) - 1), (380, 1800, 63)).cycle, 99)

    days = [givendra.Count(1, 8999, 0, 500, 1), (1, 9000, 0, 600, 1), (1, 8000, 0, 900, 1), (1, 9001, 0, 700, 1), (1, 9000, 0, 800, 2),
            (1, 9000, 0, 900, 5), (1, 9000, 0, 900, 0)]
    same("the newest count", givendra.newest_count(days, 1, 9000, 1), 600)
    same("the newest count of another period", givendra.newest_count(days, 1, 9000, 2), 800)
    same("the newest count of what is told once", givendra.newest_count(iter(days), 1, 8998, 1), 900)
    same("no count", outcome(givendra.newest_count, [], 1, 9000, 1), "refused 9 1")
    for period in (0, 3, 5, 257, (1 << 64) - 1):
        same("period %d" % period, outcome(givendra.newest_count, days, 1, 9000, period), "refused 9 1")
    for count in ((256, 9000, 0, 600, 1), (1, 65536, 0, 600, 1), (1, 9000, -1, 600, 1), (1, 9000, 0, 65536 + 600, 1), (1, 9000, 0, 600, 257)):
        same("the count %r" % (count,), outcome(givendra.newest_count, [count], 1, 9000, 1), "OverflowError")
    for count in ((1, 9000, 0, 600), (1, 9000, 0, "600", 1)):
        same("the count %r" % (count,), outcome(givendra.newest_count, [count], 1, 9000, 1), "TypeError")
    same("a design day of 65,536", outcome(givendra.newest_count, days, 1, 65536, 1), "OverflowError")
    for period in (-1, 1 << 64):
        same("period %d" % period, outcome(givendra.newest_count, days, 1, 9000, period), "OverflowError")

    try:
        givendra.judge(junction, b"\x11\x00\x02\x00\x00")
    except givendra.Refused as refused:
        same("a refusal", (refused.number, refused.place, refused.text), (13, 0, givendra.refusal_text(13)))
        same("a refusal's words", str(refused), "refused 13 0: " + givendra.refusal_text(13))


def imports(other):
    """A library that is of another release, is missing, or is another one: the import says so."""
    for path, words in ((other, "%s is of release %d, and this module of release %d" % (other, givendra.RELEASE + 1, givendra.RELEASE)),
                        ("./none.so", "the shared library is not found"), ("libc.so.6", "libc.so.6 has no function givendra_release")):
        run = subprocess.run([sys.executable, "-B", "-c", "import givendra"], env=dict(os.environ, GIVENDRA_LIBRARY=path), stderr=subprocess.PIPE)
        told = run.stderr.decode().splitlines()[-1:]
        same("importing with " + path, [line.startswith("ImportError: givendra: " + words) for line in told], [True])


cases = stored_cases()
header_lines()
declarations()
own()
imports(sys.argv[1])
if not failed:
    print("python: the module answers the %d stored cases as it should, and has the header's structs, functions and texts" % cases)
sys.exit(failed)
