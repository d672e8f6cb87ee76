#!/bin/sh
# install.sh [PREFIX]: looks at what tools/install has installed below PREFIX; without a PREFIX, installs into a temporary folder first. Builds a C
# program outside the repository by pkg-config alone, runs the installed programs and `accepted`, and holds the Python module to the stored cases.
prefix=${1:+$(CDPATH= cd "$1" && pwd)} || exit 1
cd "$(dirname "$0")/.." || exit 1
work=$(mktemp -d) || exit 1
trap 'rm -rf "$work"' EXIT
if [ -z "$prefix" ]; then
    tests/tools.sh || exit 1
    prefix="$work/a prefix"
    tools/install "$prefix" > "$work/log" 2>&1 || { cat "$work/log"; exit 1; }
fi
failed=0
root=$PWD
export PKG_CONFIG_PATH="$prefix/lib/pkgconfig" PYTHONPATH="$prefix/share/givendra/python" PYTHONDONTWRITEBYTECODE=1
release=$(sed -n 's/^#define GIVENDRA_RELEASE //p' include/givendra.h)

# same NAME STATUS EXPECTED COMMAND..: compares the status and what the command writes on standard output, and on standard error after it.
same() {
    name=$1 status=$2 expected=$3
    shift 3
    "$@" > "$work/out" 2> "$work/err"
    [ $? = "$status" ] && [ "$(cat "$work/out" "$work/err")" = "$expected" ] && return
    echo "install: $name: does not end with status $status, or wrote:"
    cat "$work/out" "$work/err"
    failed=1
}

usage="usage: install PREFIX"
same "no prefix" 2 "$usage" tools/install
same "an empty prefix" 2 "$usage" tools/install ''
same "two prefixes" 2 "$usage" tools/install "$work/one" "$work/two"
same "an option" 2 "$usage" tools/install --help
same "a prefix that pkg-config does not take" 2 "install: PREFIX has a character that pkg-config does not take" tools/install "$work/a#b"

same "the installed files" 0 "./bin/accepted
./bin/delay
./bin/intergreens
./bin/judge
./bin/plan
./bin/portable
./bin/shift
./include/givendra.h
./lib/libgivendra.a
./lib/libgivendra.so
./lib/libgivendra.so.$release
./lib/pkgconfig/givendra.pc
./share/givendra/python/givendra.py" sh -c 'cd "$1" && find . ! -type d | LC_ALL=C sort' sh "$prefix"
same "the installed header" 0 '' cmp include/givendra.h "$prefix/include/givendra.h"
same "pkg-config --modversion" 0 "$release" pkg-config --modversion givendra
same "absolute paths for pkg-config" 1 '' sh -c 'grep -v ^prefix= "$1" | grep "[ =]/"' sh "$prefix/lib/pkgconfig/givendra.pc"
same "the exported functions" 0 "$(sed -n 's/^pub extern "C" fn \([a-z0-9_]*\)(.*/\1/p' crates/givendra_c/src/lib.rt | LC_ALL=C sort)" \
    sh -c 'nm -D --defined-only "$1" | cut -d " " -f 3 | LC_ALL=C sort' sh "$prefix/lib/libgivendra.so"

# The C example in another folder, linked with the shared library and statically. pkg-config writes a backslash before a blank.
whole=$root/examples/whole_case
expected=$(cat "$whole.txt"; echo accepted; echo 'intergreen from 1 to 2: 5 s'; echo 'level of service of stream 1: A')
mkdir "$work/outside" && cp examples/desk.c "$work/outside" && cd "$work/outside" || exit 1
eval "gcc desk.c $(pkg-config --cflags --libs givendra) -o shared" || exit 1
eval "gcc -static desk.c $(pkg-config --static --cflags --libs givendra) -o static" || exit 1
same "a program with the shared library" 0 "$expected" env LD_LIBRARY_PATH="$prefix/lib" ./shared "$whole.junction"
same "a static program" 0 "$expected" ./static "$whole.junction"
same "the library that the program asks for" 0 "[libgivendra.so.$release]" \
    sh -c 'readelf -d shared | sed -n "s/.*NEEDED.*\(\[libgivendra.*\]\).*/\1/p"'

# A library of the next release: the example does not go on.
printf '#include <stdint.h>\nuint32_t givendra_release(void) { return %s; }\n' $((release + 1)) > next.c
gcc -shared -fPIC next.c -o next.so || exit 1
same "the next release" 2 "desk: the library is of release $((release + 1)), and the header of $release" \
    env LD_PRELOAD=./next.so LD_LIBRARY_PATH="$prefix/lib" ./shared "$whole.junction"

# The programs, from another folder.
bin=$prefix/bin
same "the installed plan" 0 "$(cat "$whole.txt")" sh -c '"$1" < "$2"' sh "$bin/plan" "$whole.junction"
same "the installed delay" 0 "1 delay 3.5 A" "$bin/delay" "$whole.junction" "$whole.plan"
same "the installed shift" 0 "cycle 50
1 10 35
2 0 6" "$bin/shift" "$whole.junction" "$whole.plan" 10
same "the installed portable" 0 "$(cat "$root/crates/portable/stdout")" "$bin/portable" 100 30 400 1800 67 380 1800 63
same "the installed intergreens" 0 "$(cat "$root/crates/intergreens/stdout")" sh -c '"$1" < "$2"' sh "$bin/intergreens" "$root/examples/four_phases.junction"
: > empty.plan
for accepted in "$bin/accepted" "$root/tools/accepted"; do
    same "a plan by $accepted" 0 accepted "$accepted" "$whole.junction" "$whole.plan"
    same "an empty plan by $accepted" 1 "refused 12 0" "$accepted" "$whole.junction" empty.plan
    same "no such plan by $accepted" 2 "none: No such file or directory" "$accepted" "$whole.junction" none
    same "a folder for a junction by $accepted" 2 ".: Is a directory" "$accepted" . "$whole.plan"
    same "an option by $accepted" 2 "usage: accepted JUNCTION-FILE PLAN-FILE" "$accepted" "$whole.junction" -h
    same "one name by $accepted" 2 "usage: accepted JUNCTION-FILE PLAN-FILE" "$accepted" "$whole.junction"
done
ln -s "$bin/accepted" linked
same "a plan by a link to accepted" 0 accepted ./linked "$whole.junction" "$whole.plan"
cp "$bin/accepted" .
here=$(pwd -P)
same "accepted without judge" 2 "accepted: no program judge in $here or $here/../target/bin" ./accepted "$whole.junction" "$whole.plan"
[ $failed = 0 ] && echo "install: header, libraries and programs are installed, and a program outside is built by pkg-config"

# The module finds the library that was installed with it, or, standing alone, what the loader finds.
cp "$prefix/share/givendra/python/givendra.py" .
same "the module alone" 0 "$release" env LD_LIBRARY_PATH="$prefix/lib" PYTHONPATH=. python3 -c 'import givendra; print(givendra.release())'
same "the Python example with the next release" 2 "givendra: ./next.so is of release $((release + 1)), and this module of release $release" \
    env GIVENDRA_LIBRARY=./next.so python3 "$root/examples/desk.py" "$whole.junction"
python3 "$root/tests/python.py" "$PWD/next.so" || failed=1
exit $failed
