#!/bin/sh
# Makes and installs the C library from crates that rt has proved; holds its declarations to each other; calls all of its header from C and C++
# and runs the C example, each also under valgrind, and the Python example; measures its stack; looks at what is installed; runs the benchmark
# briefly, and compares the library with the model.
cd "$(dirname "$0")/.." || exit 1
work=$(mktemp -d) || exit 1
trap 'rm -rf "$work"' EXIT
tests/tools.sh || exit 1
prefix="$work/a prefix"
tools/install "$prefix" > "$work/log" 2>&1 || { cat "$work/log"; exit 1; }
failed=0
warnings="-pedantic -Wall -Wextra -Werror"

# compiled COMPILER-WORDS.. SOURCE..: compiles it to $work/program and links the library.
compiled() { "$@" $warnings -O2 -Iinclude -Ltarget/staticlib -lgivendra -o "$work/program" || exit 1; }

# run NAME STATUS WORD..: runs the program with these words, to $work/out. It has to end with this status, and to do and write the same under
# valgrind's memcheck, which has to report nothing.
run() {
    name=$1 status=$2
    shift 2
    "$work/program" "$@" > "$work/out"
    [ $? = "$status" ] || { echo "library: $name does not end with status $status"; failed=1; }
    valgrind --error-exitcode=9 --quiet --log-file="$work/report" "$work/program" "$@" > "$work/watched"
    [ $? = "$status" ] && cmp "$work/out" "$work/watched" && [ ! -s "$work/report" ] || { echo "library: $name under valgrind:"; cat "$work/report"; failed=1; }
}

tests/declarations.sh || failed=1
# The test calls every function of the crate.
gcc -std=c99 -Iinclude -c -o "$work/header.o" tests/header.c || exit 1
nm --undefined-only "$work/header.o" | grep -o 'givendra_.*' | sort > "$work/called"
sed -n 's/^pub extern "C" fn \([a-z0-9_]*\)(.*/\1/p' crates/givendra_c/src/lib.rt | sort | diff - "$work/called" ||
    { echo "library: tests/header.c does not call these functions"; failed=1; }
# Each is linked with a second file that takes the header in.
echo '#include "givendra.h"' > "$work/second.c"
for compiler in 'gcc -std=c99' 'g++ -std=c++11 -x c++'; do
    compiled $compiler tests/header.c "$work/second.c"
    run "tests/header.c by $compiler" 0
    diff tests/header.txt "$work/out" || { echo "library: tests/header.c by $compiler does not write tests/header.txt"; failed=1; }
done
for compiler in 'gcc -std=c11' 'gcc -std=c17' 'gcc -std=c2x' 'g++ -std=c++14 -x c++' 'g++ -std=c++17 -x c++' 'g++ -std=c++20 -x c++'; do
    $compiler $warnings -fsyntax-only -Iinclude tests/header.c || { echo "library: $compiler does not take the header"; failed=1; }
done
[ $failed = 0 ] && echo "library: every function of the header answers C and C++ what it should"

# Nothing is kept between calls and nothing allocated: no section of the archive can be written, and these are all the functions that it calls.
objdump -h target/staticlib/libgivendra.a | grep ' ALLOC' | grep -v READONLY && { echo "library: the archive has memory of its own"; failed=1; }
called=$(nm --undefined-only target/staticlib/libgivendra.a | sed -n 's/^ *U //p' | tr '\n' ' ')
[ "$called" = "memcpy memset " ] || { echo "library: the archive calls $called"; failed=1; }
compiled gcc -std=c99 tests/stack.c
bytes=$("$work/program" examples/*.junction) || { echo "library: a call takes $bytes bytes of stack, not less than GIVENDRA_STACK"; failed=1; }
[ $failed = 0 ] && echo "library: the archive has no memory of its own, and a call takes at most $bytes bytes of stack"

# fails WORD..: an example run with these words ends with status 2 and says why on standard error.
fails() {
    err=$("$@" 2>&1 > /dev/null)
    [ $? = 2 ] && [ -n "$err" ] || { echo "library: $* does not end with status 2 and a reason"; failed=1; }
}

# no_room WORD..: the same where no file can be written.
no_room() {
    trap '' XFSZ
    ulimit -f 0
    "$@"
}

# full WORD..: the same where standard output is full.
full() { "$@" > /dev/full; }

# saves WORD..: an example run by these words saves the plan in a new file alone, and says where it fails.
saves() {
    rm -f "$work"/*.plan
    "$@" $whole.junction "$work/saved.plan" > /dev/null && cmp $whole.plan "$work/saved.plan" || { echo "library: $* does not save the plan"; failed=1; }
    cp $whole.junction "$work/kept.junction"
    fails "$@" "$work/kept.junction" "$work/kept.junction"
    cmp $whole.junction "$work/kept.junction" || { echo "library: $* writes over the junction file"; failed=1; }
    fails "$@" $whole.junction "$work/none/saved.plan"
    fails no_room "$@" $whole.junction "$work/long.plan"
    fails full "$@" $whole.junction
    fails full "$@" examples/refused_22.junction
    fails "$@" "$work/none"
    fails "$@" "$work"
    fails "$@"
    fails "$@" $whole.junction "$work/a.plan" "$work/b.plan"
}

# Streams 1 and 2 of the whole case and of its evening share a zone; those of the other examples that have a plan are of one phase. Stream 1 of each is a
# car, with a level worked out apart.
compiled gcc -std=c99 examples/desk.c
export PYTHONPATH="$prefix/share/givendra/python" PYTHONDONTWRITEBYTECODE=1
whole=examples/whole_case
for f in examples/*.junction; do
    plan=$(cat "${f%.junction}.txt")
    case $f in
    $whole.junction | examples/evening.junction) intergreen=5 ;;
    *) intergreen=0 ;;
    esac
    case $f in
    examples/four_phases.junction) level=C ;;
    examples/stop_tram.junction) level=E ;;
    *) level=A ;;
    esac
    case $plan in
    refused*) status=1 number=${plan#* } expected="$plan: $(sed -n "s/^text ${number% *}: //p" tests/header.txt)" ;;
    *) status=0 expected=$(printf '%s\naccepted\nintergreen from 1 to 2: %s s\nlevel of service of stream 1: %s' "$plan" $intergreen $level) ;;
    esac
    run "the C example on $f" $status "$f"
    [ "$(cat "$work/out")" = "$expected" ] || { echo "library: the C example on $f wrote:"; cat "$work/out"; failed=1; }
    python3 examples/desk.py "$f" > "$work/out"
    [ $? = $status ] && [ "$(cat "$work/out")" = "$expected" ] || { echo "library: the Python example on $f wrote:"; cat "$work/out"; failed=1; }
done
saves "$work/program"
saves python3 examples/desk.py
[ $failed = 0 ] && echo "library: the examples in C and Python write what they should"
tests/install.sh "$prefix" || failed=1

# The benchmark on few files and in short rounds: every row is written, in order, with files, instructions of both programs and times.
cargo run --release --offline --locked --quiet --package benchmark -- briefly > "$work/out" 2> "$work/log" || { tail -n 60 "$work/log"; exit 1; }
count=' [1-9][0-9]* \|' ratio=' [0-9]+\.[0-9]+ \|' times=' [0-9.]+ \([0-9.]+ to [0-9.]+\) \|'
rows=$(sed -nE "s/^\| ([^|]+) \|$count$count$count$ratio$times$times$ratio\$/\1/p" "$work/out" | tr '\n' ';')
expected="read, taken;a plan;refused 21;refused 22;all;accepted;refused 15;refused 16;refused 17;all"
expected="$expected;read, taken;worked out, a plan;judged, accepted;read, taken;worked out, a plan;judged, accepted"
expected="$expected;$(seq -s ';' 2 16);0;1;2;4;$(seq -s ';' 8 8 64)"
expected="$expected;1;2 to 3;4 to 7;8 to 15;16 to 31;32 to 63;64 to 127;18;32;56;80;104;128;152;180, then 22;"
[ "$rows" = "$expected" ] || { echo "library: the benchmark does not write these rows: $expected"; cat "$work/out"; failed=1; }
[ $failed = 0 ] && echo "library: the benchmark gives the stated answers, and writes every row with counts and times"
cargo test --release --offline --locked --quiet --package model > "$work/log" 2>&1 || { tail -n 60 "$work/log"; exit 1; }
passed=0
for n in $(sed -n 's/^test result: ok\. \([0-9]*\) passed.*/\1/p' "$work/log"); do
    passed=$((passed + n))
done
written=$(find model -name '*.rs' -exec cat {} + | grep -c '^ *#\[test\]')
[ $passed = "$written" ] || { echo "library: the model: $passed tests of $written were run"; failed=1; }
echo "library: the model: $passed tests passed"
exit $failed
