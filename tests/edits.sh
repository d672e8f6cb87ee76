#!/bin/sh
# edits.sh [LOG]: holds each must-fail edit to the line `# refused: NAME` in it. What the prover says first of the edit, in the log of `rt ci`, or where
# none is given, of `rt must-fail`, must be said of NAME, a theorem or a function of the crate, or of something that NAME rests on: a definition,
# lemma or function that stands in its text, in its contract or in its proof, or in that of another such. Where it is said of something else, the
# crate is checked with the edit, in a copy, and NAME, or something that it rests on, must be among what the prover refuses there.
cd "$(dirname "$0")/.." || exit 1
work=$(mktemp -d) || exit 1
trap 'rm -rf "$work"' EXIT
log=${1:-$work/log}
[ -n "$1" ] || rt must-fail > "$log" 2>&1
python3 - "$log" "$work/copy" << 'END'
import glob, os, re, shutil, subprocess, sys

DECLARED = re.compile(r"\s*(?:(?:abbrev|unfoldable|pub) )*(?:(?:record|data) )?([^\s(){}:.,]+) :(?: |$)")


def read(path):
    with open(path, encoding="utf-8") as file:
        return file.read()


def function_of(inside):
    """The function whose proof a file of the crate is, with its type's and its trait's names before it; None where it is another file."""
    part = inside.split("/")
    return "::".join(part[1:-1]).lstrip("+") if part[0] == "proofs" and part[-1] in ("Answers.antt", "Invariants.antt") else None


def words(text, texts):
    """The names that a text can name: words, and for `Type::function` the functions of that name of the type and its traits."""
    named = {name for of, function in re.findall(r"(\w+)::(\w+)", text) for name in texts if name.startswith(of) and name.endswith("::" + function)}
    return set(re.findall(r"[\w'-]+", text)) & texts.keys() | named


def declarations(path):
    """Name and text of each declaration of an antt file, with all that stands before the next."""
    texts, name = {}, None
    for line in read(path).split("\n"):
        line = line.split("--")[0]
        found = DECLARED.match(line)
        if found:
            name = found[1]
        if name:
            texts[name] = texts.get(name, "") + "\n" + line
    return texts


def functions(path):
    """Name, first line and text of each function of a source; its attributes belong to it."""
    found, start, of = [], 0, ""
    for number, line in enumerate(read(path).split("\n"), 1):
        fn = re.match(r"\s*(?:pub )?(?:const )?(?:extern \"C\" )?fn (\w+)", line)
        impl = re.match(r"impl(?:<[^>]*>)? (?:(.*) for )?(.*) \{$", line)
        if impl:
            of = re.sub(r"\W", "", re.sub(r"fmt::|<'?_?\w*>$", "", impl[2]) + re.sub(r"fmt::", "", (impl[1] or "").replace("()", "Unit"))) + "::"
        if line == "}":
            of = ""
        if re.match(r"\s*#\[tactic", line):
            start = number
        if fn:
            found.append([(of if line.startswith(" ") else "") + fn[1], start or number, ""])
            start = 0
        if found:
            found[-1][2] += line + "\n"
    return found


def crate_of(folder):
    """The text of each name that the crate declares."""
    texts = {}
    for path in glob.glob(folder + "/specs/**/*.antt", recursive=True) + glob.glob(folder + "/proofs/**/*.antt", recursive=True):
        function = function_of(os.path.relpath(path, folder))
        for name, text in declarations(path).items():
            texts[function or name] = texts.get(function or name, "") + text
    for path in glob.glob(folder + "/src/**/*.rt", recursive=True):
        for name, _, text in functions(path):
            texts[name] = texts.get(name, "") + text
    return texts


def told_of(folder, said):
    """The name of which a line of rt says that it is refused."""
    at = re.match(r"refused, as it must be: (?:note: )?(?:\./)?(\S+?):(\d+):\d+: (?:error: )?(?:`([^`]+)`: )?", said)
    if not at:
        return None
    if at[1].startswith("src/"):
        before = [name for name, line, _ in functions(folder + "/" + at[1]) if line <= int(at[2])]
        return before[-1] if before else None
    return function_of(at[1]) or at[3]


def checked(folder, edit):
    """What a check of the crate says with the edit, in a copy."""
    if not os.path.exists(sys.argv[2]):
        shutil.copytree("crates", sys.argv[2] + "/crates", ignore=shutil.ignore_patterns("out"))
        shutil.copy("crates.txt", sys.argv[2])
    copy, path = sys.argv[2] + "/" + folder, None
    for line in read(edit).split("\n"):
        kind, _, text = line.partition(": ")
        if kind == "file":
            path = copy + "/" + text
        elif kind == "old":
            old = text
        elif kind == "new":
            changed = read(path).replace(old, text)
            with open(path, "w", encoding="utf-8") as file:
                file.write(changed)
    said = subprocess.run(["rt", "check"], cwd=copy, stdout=subprocess.PIPE, stderr=subprocess.STDOUT, encoding="utf-8").stdout
    shutil.rmtree(copy)
    shutil.copytree(folder, copy, ignore=shutil.ignore_patterns("out"))
    return said


def refused_in(said):
    """The names of the functions that the prover does not accept, and of the theorems that it refuses for what they say."""
    names = re.findall(r"^fn \w+::((?:[A-Z]\w*::)?\w+): no(?:t proved| proof)", said, re.M)
    for path, name in re.findall(r"^(?:\./)?(\S+?):\d+:\d+: error: `([^`]+)`: (?!.*was not admitted)", said, re.M):
        names.append(function_of(path) or name)
    return set(names)


said = dict(re.findall(r"^rt: must-fail (\S+)\.edit: (.*)", read(sys.argv[1]), re.M))
held, failed, crates = 0, False, {}
for edit in sorted(glob.glob("crates/*/must-fail/*.edit")):
    folder, label = edit.split("/must-fail/")
    key = folder.split("/")[1] + "/" + label[:-len(".edit")]
    asked = re.search(r"^# refused: (\S+)$", read(edit), re.M)
    texts = crates.setdefault(folder, crate_of(folder))
    told = told_of(folder, said.get(key, ""))
    reached, left = set(), [asked[1]] if asked and asked[1] in texts else []
    while left:
        name = left.pop()
        if name not in reached:
            reached.add(name)
            left.extend(words(texts[name], texts))
    if told in reached or told and reached & refused_in(checked(folder, edit)):
        held += 1
    else:
        print("edits: %s: not refused at '%s': %s" % (key, asked[1] if asked else "", said.get(key, "not tried")[:200]))
        failed = True
if not failed:
    print("edits: each of %d is refused at the theorem or function that it names, or at what that rests on" % held)
sys.exit(failed)
END
