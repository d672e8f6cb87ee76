#!/bin/sh
# Runs the programs judge, plan, shift, delay, portable and intergreens on files and numbers, and compares what they write with what they
# should. tools/make makes them: what rt has proved and has not changed since is not proved again.
cd "$(dirname "$0")/.." || exit 1
work=$(mktemp -d) || exit 1
trap 'rm -rf "$work"' EXIT
tools/make judge plan shift delay portable intergreens || exit 1
failed=0

# same NAME EXPECTED-OUTPUT EXPECTED-ERROR COMMAND..: compares standard output and standard error.
same() {
    name=$1 out=$2 err=$3
    shift 3
    "$@" > "$work/out" 2> "$work/err"
    [ $? = 0 ] || { echo "programs: $name: does not end with status 0"; failed=1; }
    printf "$out" | cmp -s - "$work/out" && printf "$err" | cmp -s - "$work/err" && return
    echo "programs: $name: wrote:"
    cat "$work/out" "$work/err"
    failed=1
}

judge=target/bin/judge
junction=examples/whole_case.junction
plan=examples/whole_case.plan
# bytes OFFSET COUNT FILE: a part of a file
bytes() { tail -c +"$(($1 + 1))" "$3" | head -c "$2"; }

{ bytes 0 18 $plan; printf '\047'; bytes 19 2 $plan; } > "$work/early.plan"
: > "$work/empty"
# The whole case as it was before request 2026-04, and with the period added.
{ printf '\001\000\004'; bytes 3 4 $junction; bytes 8 41 $junction; printf '\004\000\007'; bytes 52 7 $junction; } > "$work/old.junction"
same "a file of an earlier release" 'refused 4 0\n' '' $judge "$work/old.junction" $plan
same "a file of an earlier release with period 1" '' '' tools/add_period 1 "$work/old.junction" "$work/new.junction"
cmp $junction "$work/new.junction" || failed=1
for words in "1 $work/new.junction $work/newer.junction" "1 $work/old.junction $work/new.junction" "5 $work/old.junction $work/newer.junction" \
    "1 $work/none $work/newer.junction" "1 $plan $work/newer.junction" "1 $work/empty $work/newer.junction" "1 $work/old.junction"; do
    err=$(tools/add_period $words 2>&1)
    [ $? = 2 ] && [ -n "$err" ] && [ ! -e "$work/newer.junction" ] || { echo "programs: add_period $words does not end with status 2 and a reason"; failed=1; }
done
{ cat $plan; head -c 70000 /dev/zero; } > "$work/long.plan"
{ printf '\021\377\377'; head -c 65535 /dev/zero; } > "$work/field.plan"
same "a field of 65,535 bytes that fits" 'refused 12 0\n' '' $judge $junction "$work/field.plan"
{ printf '\021\377\377'; head -c 65534 /dev/zero; } > "$work/field.plan"
same "a field of 65,535 bytes that does not fit" 'refused 11 0\n' '' $judge $junction "$work/field.plan"
head -c 16384 /dev/zero > "$work/zeros"
same "a junction of 16,384 bytes" 'refused 3 0\n' '' $judge "$work/zeros" $plan
head -c 20000 /dev/zero > "$work/zeros"
same "a junction of 20,000 bytes" 'refused 1 0\n' '' $judge "$work/zeros" $plan

for f in examples/*.junction; do
    same "plan of $f" "$(cat "${f%.junction}.txt")\n" '' sh -c "target/bin/plan < $f"
    same "plan of $f, by name" "$(cat "${f%.junction}.txt")\n" '' target/bin/plan "$f"
done
same "intergreens of the example" "$(cat crates/intergreens/stdout)\n" '' target/bin/intergreens examples/four_phases.junction
same "intergreens of the whole case" 'Intergreen times in s, from the stream that clears (down) to the stream that starts (across); . same phase, - not checked
         1    2
    1    .    5
    2    4    .
not checked, in different phases without a zone: none

Streams, with flows counted in period 1
    1  phase 1  car         needs 8 s   flow 600 E/h counted on 2024-08-22, day 9000   S 1925 E/h   y 0.3117
    2  phase 2  pedestrian  needs 6 s\n' '' sh -c 'target/bin/intergreens < examples/whole_case.junction'
same "intergreens of the evening" 'Intergreen times in s, from the stream that clears (down) to the stream that starts (across); . same phase, - not checked
         1    2
    1    .    5
    2    4    .
not checked, in different phases without a zone: none

Streams, with flows counted in period 3
    1  phase 1  car         needs 8 s   flow 900 E/h counted on 2024-08-22, day 9000   S 1925 E/h   y 0.4676
    2  phase 2  pedestrian  needs 6 s\n' '' target/bin/intergreens examples/evening.junction
same "intergreens of the island" 'Intergreen times in s, from the stream that clears (down) to the stream that starts (across); . same phase, - not checked
         1    2    3    4    5
    1    .    .    .    4    5
    2    .    .    .    3    7
    3    .    .    .    6    -
    4    2    3    5    .    .
    5    8    2    -    .    .
not checked, in different phases without a zone: 3-5

Streams, with flows counted in period 1
    1  phase 1  car         needs 8 s   flow 1780 E/h counted on 2024-08-02, day 8980   S 5351 E/h   y 0.3327
    2  phase 1  car         needs 8 s   flow 1240 E/h counted on 2024-08-02, day 8980   S 3675 E/h   y 0.3375
    3  phase 1  pedestrian  needs 10 s
    4  phase 2  car         needs 8 s   flow 210 E/h counted on 2024-08-03, day 8981   S 1305 E/h   y 0.1610
    5  phase 2  island      needs 18 s\n' '' target/bin/intergreens examples/island.junction

# The evening's file with the morning's period has the whole case's plan.
{ bytes 0 7 examples/evening.junction; printf '\001'; bytes 8 63 examples/evening.junction; } > "$work/morning.junction"
same "the evening's file in period 1" "$(cat examples/whole_case.txt)\n" '' target/bin/plan "$work/morning.junction"

# The plan that `plan` keeps is the one that `judge` accepts. A file that is there is never written over, and a refusal makes none.
same "plan keeps its file" "$(cat examples/whole_case.txt)\n" '' target/bin/plan $junction "$work/kept.plan"
cmp $plan "$work/kept.plan" || failed=1
same "judge of the plan kept" 'accepted\n' '' $judge $junction "$work/kept.plan"
same "plan over a file" '' "$work/kept.plan: File exists\n" target/bin/plan examples/four_phases.junction "$work/kept.plan"
cmp $plan "$work/kept.plan" || failed=1
cp $junction "$work/junction"
same "plan over its junction" '' "$work/junction: File exists\n" target/bin/plan "$work/junction" "$work/junction"
cmp $junction "$work/junction" || failed=1
same "plan of a refused junction" 'refused 22 0\n' '' target/bin/plan examples/refused_22.junction "$work/refused.plan"
[ ! -e "$work/refused.plan" ] || { echo "programs: a refusal makes a plan file"; failed=1; }
same "plan into no folder" '' "$work/none/plan: No such file or directory\n" target/bin/plan $junction "$work/none/plan"
same "plan onto a device" '' '/dev/full: File exists\n' target/bin/plan $junction /dev/full
same "plan where nothing can be written" "$work/full.plan: File too large\n" '' \
    sh -c "(trap '' XFSZ; ulimit -f 0; exec target/bin/plan $junction $work/full.plan) 2>&1 | cat"
[ ! -e "$work/full.plan" ] || { echo "programs: a plan file that is not whole is left"; failed=1; }

# Bad input and output, of each program that reads a junction: by standard input, then by name.
printf 'cycle 50\n1 0 35\n' > "$work/text"
head -c 1048576 /dev/zero > "$work/megabyte"
long=$(printf '%05000d' 0)
component=$(printf '%0256d' 0)
latin=$(printf 'k\366ln')
for program in plan intergreens; do
    bin=target/bin/$program
    case $program in
    plan) words='plan [JUNCTION-FILE [NEW-PLAN-FILE]]' ;;
    *) words='intergreens [JUNCTION-FILE]' ;;
    esac
    same "$program of nothing" 'refused 8 0\n' '' sh -c "$bin < /dev/null"
    same "$program of 16,384 bytes" 'refused 3 0\n' '' sh -c "head -c 16384 /dev/zero | $bin"
    same "$program of 20,000 bytes" 'refused 1 0\n' '' sh -c "head -c 20000 /dev/zero | $bin"
    same "$program of a folder" '' "$program: standard input: Is a directory\n" sh -c "$bin < examples"
    same "$program of what cannot be read" '' "$program: standard input: Input/output error\n" sh -c "$bin < /proc/self/mem"
    same "$program of a closed input" '' "$program: standard input: Bad file descriptor\n" sh -c "$bin <&-"
    same "$program to a full output" '' "$program: standard output: No space left on device\n" sh -c "$bin < $junction > /dev/full"
    same "$program to a closed output" '' "$program: standard output: Bad file descriptor\n" sh -c "$bin < $junction >&-"
    same "$program of no file" '' "$work/none: No such file or directory\n" $bin "$work/none"
    same "$program of a folder's name" '' "$work: Is a directory\n" $bin "$work"
    same "$program of a file that cannot be read" '' '/proc/self/mem: Input/output error\n' $bin /proc/self/mem
    same "$program of an empty file" 'refused 8 0\n' '' $bin "$work/empty"
    same "$program of text" 'refused 2 0\n' '' $bin "$work/text"
    same "$program of a megabyte" 'refused 1 0\n' '' $bin "$work/megabyte"
    same "$program of an empty name" '' "$program: a file name is empty or too long\n" $bin ''
    same "$program of a name of 5,000 bytes" '' "$program: a file name is empty or too long\n" $bin "$long"
    same "$program of a name that is too long for a file" '' "$component: File name too long\n" $bin "$component"
    same "$program of a name that is not UTF-8" '' "$program: a file name is not UTF-8 text\n" $bin "$latin"
    for option in -h --help -; do
        same "$program $option" '' "usage: $words\n" $bin $option
    done
    same "$program with too many arguments" '' "usage: $words\n" $bin $junction "$work/a" "$work/b"
done

# delayed EXAMPLE EXPECTED: what `delay` tells of the plan that `plan` keeps of an example, worked out apart.
delayed() {
    rm -f "$work/delayed.plan"
    target/bin/plan "examples/$1.junction" "$work/delayed.plan" > "$work/out" 2>&1
    same "delay of $1" "$2\n" '' target/bin/delay "examples/$1.junction" "$work/delayed.plan"
}

delayed evening '1 delay 4.8 A'
delayed four_phases '1 delay 39.4 C\n2 delay 49.7 C\n4 delay 137.6 F\n7 delay 91.1 E'
delayed island '1 delay 10.5 A\n2 delay 10.9 A\n4 delay 28.3 B'
delayed pedestrian_phase '1 delay 20.8 A\n2 delay 19.2 A\n3 delay 31.6 B'
delayed stop_tram '1 delay 73.7 E\n2 delay 45.0 C\n3 delay 577.1 F\n6 delay 975.7 F'

# told LABEL EXPECTED: `delay` on the junction and the plan of a stored case prints a line for each car, with the same level and tenths rounded up.
told() {
    python3 -c '
import sys
for line in open("crates/stored_cases/stdin"):
    if line.startswith("junction:"):
        junction = line.split(":")[1]
    if line.startswith("delay " + sys.argv[1] + ": "):
        for name, digits in (("junction", junction.split()), ("plan", line.rpartition(":")[2].split()[1:])):
            open(sys.argv[2] + "/told." + name, "wb").write(bytes.fromhex("".join(digits)))
' "$1" "$work"
    same "delay of $1" "$2\n" '' target/bin/delay "$work/told.junction" "$work/told.plan"
    rm -f "$work/told.junction" "$work/told.plan"
}

told '35 of 50, 600 of 1,925, the whole case' '1 delay 3.5 A'
told '48 of 50, 600 of 1,925, length + 1 a second below the cycle' '1 delay 0.5 A'
told '49 of 50, 600 of 1,925, length + 1 is the cycle' '1 no red A'
told '10 of 20, 1,485 of 2,700, exact capacity, u just below 1' '1 delay over 9999.9 F'
told '49 of 100, 1,350 of 2,700, exact capacity, u 1' '1 saturation 1.0 F'
told '13 of 55, 280 of 1,100, exact capacity, u just above 1' '1 saturation 1.0 F'
told 'one unit below capacity' '1 delay 1625.2 F'
told '12 of 23, 1,088 of 1,925, capacity 25,025 for 25,024' '1 delay over 9999.9 F'
told '49 of 50, 1,925 of 1,925, no red is tested before u, which is 1' '1 no red A'
told '22 of 69, 378 of 1,620, the greatest below 25 s' '1 delay 25.0 A'
told '17 of 60, 642 of 2,700, 25 s exactly' '1 delay 25.0 A'
told '55 of 112, 1,296 of 3,240, the least above 25 s' '1 delay 25.1 B'
told '55 of 140, 756 of 2,700, 35 s exactly' '1 delay 35.0 B'
told '20 of 35, 1,566 of 2,700, the least above 35 s' '1 delay 35.1 C'
told '29 of 108, 810 of 3,240, 50 s exactly' '1 delay 50.0 C'
told '68 of 180, 574 of 1,980, just above 50 s' '1 delay 50.1 D'
told '47 of 160, 1,008 of 3,600, 70 s exactly' '1 delay 70.0 D'
told '9 of 144, 95 of 2,475, just above 70 s' '1 delay 70.1 E'
told '26 of 171, 588 of 3,990, 100 s exactly' '1 delay 100.0 E'
told '8 of 153, 144 of 3,060, the real number is 100' '1 delay 100.1 F'
told 'every kind, the car before' '1 delay 3.5 A\n6 delay 8.3 A'
told 'a car with a delay beside one at u 1' '1 delay 29.3 B\n2 saturation 1.0 F'
told '9, count after the design day, stream 1' 'refused 9 1'

# shifted EXAMPLE OFFSET: `shift` prints the plan of an example with every start moved, and keeps it in a file, which `judge` accepts, and of which
# `delay` tells what it tells of the plan. The plan file that it reads stays as it is.
shifted() {
    rm -f "$work/before.plan" "$work/after.plan"
    target/bin/plan "examples/$1.junction" "$work/before.plan" > "$work/out" 2>&1
    cp "$work/before.plan" "$work/read.plan"
    moved=$(awk -v offset="$2" 'NR == 1 { cycle = $2; print; next } { print $1, ($2 + offset) % cycle, $3 }' "examples/$1.txt")
    same "shift of $1 by $2" "$moved\n" '' target/bin/shift "examples/$1.junction" "$work/read.plan" "$2" "$work/after.plan"
    same "shift of $1 by $2, without a new file" "$moved\n" '' target/bin/shift "examples/$1.junction" "$work/read.plan" "$2"
    cmp "$work/before.plan" "$work/read.plan" || failed=1
    same "judge of $1 shifted by $2" 'accepted\n' '' $judge "examples/$1.junction" "$work/after.plan"
    same "delay of $1 shifted by $2" "$(target/bin/delay "examples/$1.junction" "$work/before.plan")\n" '' target/bin/delay "examples/$1.junction" "$work/after.plan"
}

shifted whole_case 0
shifted whole_case 10
shifted whole_case 49
shifted evening 30
shifted four_phases 61
shifted island 7
shifted pedestrian_phase 45
shifted stop_tram 88

# The bytes of a shifted file; plans that the judge refuses; offsets that are refused, also where a part of their bits or digits is below the cycle.
shift=target/bin/shift
same "shift keeps its file" 'cycle 50\n1 10 35\n2 0 6\n' '' $shift $junction $plan 10 "$work/shifted.plan"
{ bytes 0 10 $plan; printf '\012'; bytes 11 7 $plan; printf '\000'; bytes 19 2 $plan; } | cmp - "$work/shifted.plan" || failed=1
same "shift of a start of 39" 'cycle 50\n1 11 35\n2 0 6\n' '' $shift $junction "$work/early.plan" 11 "$work/early_shifted.plan"
same "judge of a start of 39, shifted" 'refused 17 1\n' '' $judge $junction "$work/early_shifted.plan"
same "shift by 007" 'cycle 50\n1 7 35\n2 47 6\n' '' $shift $junction $plan 007
for offset in 50 51 256 65546 4294967306 18446744073709551615 18446744073709551626 1000000000000000010 100000000000000000000000000000000000000010; do
    same "shift by $offset" 'refused 24 0\n' '' $shift $junction $plan $offset "$work/refused.plan"
    same "shift of an empty plan by $offset" 'refused 12 0\n' '' $shift $junction "$work/empty" $offset "$work/refused.plan"
done
[ ! -e "$work/refused.plan" ] || { echo "programs: a refused shift makes a plan file"; failed=1; }
for offset in '' x 5x x5 5: 5/ ' 5' '5 ' +5 -5 5.0 5,000 0x5 "$long"; do
    same "shift by '$offset'" '' 'usage: shift JUNCTION-FILE PLAN-FILE OFFSET [NEW-PLAN-FILE]\n' $shift $junction $plan "$offset"
done
same "shift over a file" '' "$work/shifted.plan: File exists\n" $shift $junction $plan 20 "$work/shifted.plan"
cp "$work/shifted.plan" "$work/own.plan"
same "shift over its own plan" '' "$work/own.plan: File exists\n" $shift $junction "$work/own.plan" 20 "$work/own.plan"
cmp "$work/shifted.plan" "$work/own.plan" || failed=1
same "shift into no folder" '' "$work/none/plan: No such file or directory\n" $shift $junction $plan 10 "$work/none/plan"
same "shift with an empty name for its file" '' 'shift: a file name is empty or too long\n' $shift $junction $plan 10 ''
same "shift with a name that is not UTF-8 for its file" '' 'shift: a file name is not UTF-8 text\n' $shift $junction $plan 10 "$latin"
same "shift with an option for its file" '' 'usage: shift JUNCTION-FILE PLAN-FILE OFFSET [NEW-PLAN-FILE]\n' $shift $junction $plan 10 -x
same "shift with too many arguments" '' 'usage: shift JUNCTION-FILE PLAN-FILE OFFSET [NEW-PLAN-FILE]\n' $shift $junction $plan 10 "$work/a" "$work/b"
same "shift without an offset" '' 'usage: shift JUNCTION-FILE PLAN-FILE OFFSET [NEW-PLAN-FILE]\n' $shift $junction $plan

# Bad input and output, of each program that reads a junction and a plan. $more is what it is called with after them.
for program in judge delay shift; do
    bin=target/bin/$program usage="usage: $program JUNCTION-FILE PLAN-FILE\n" more= early='refused 17 1\n'
    case $program in
    judge) answer='accepted\n' ;;
    delay) answer='1 delay 3.5 A\n' ;;
    *) answer='cycle 50\n1 10 35\n2 0 6\n' early='cycle 50\n1 10 35\n2 49 6\n' more=10 usage='usage: shift JUNCTION-FILE PLAN-FILE OFFSET [NEW-PLAN-FILE]\n' ;;
    esac
    same "$program of the whole case" "$answer" '' $bin $junction $plan $more
    same "$program of a start of 39" "$early" '' $bin $junction "$work/early.plan" $more
    same "$program of an empty plan" 'refused 12 0\n' '' $bin $junction "$work/empty" $more
    same "$program of an empty junction" 'refused 8 0\n' '' $bin "$work/empty" $plan $more
    same "$program with 70,000 bytes after the plan" 'refused 12 21\n' '' $bin $junction "$work/long.plan" $more
    same "$program with no such junction" '' "$work/none: No such file or directory\n" $bin "$work/none" $plan $more
    same "$program with no such plan" '' "$work/none: No such file or directory\n" $bin $junction "$work/none" $more
    same "$program with a folder for a plan" '' "$work: Is a directory\n" $bin $junction "$work" $more
    same "$program with one name" '' "$usage" $bin $junction
    same "$program with three names" '' "$usage" $bin $junction $plan $plan
    same "$program -h" '' "$usage" $bin -h
    same "$program --help and a name" '' "$usage" $bin --help $plan $more
    same "$program with an option for a plan" '' "$usage" $bin $junction -x $more
    same "$program of an empty name" '' "$program: a file name is empty or too long\n" $bin '' $plan $more
    same "$program of a plan's name of 5,000 bytes" '' "$program: a file name is empty or too long\n" $bin $junction "$long" $more
    same "$program of a plan's name that is not UTF-8" '' "$program: a file name is not UTF-8 text\n" $bin $junction "$latin" $more
    same "$program of a junction that cannot be read" '' '/proc/self/mem: Input/output error\n' $bin /proc/self/mem $plan $more
    same "$program of a plan that cannot be read" '' '/proc/self/mem: Input/output error\n' $bin $junction /proc/self/mem $more
    same "$program of text for a junction" 'refused 2 0\n' '' $bin "$work/text" $plan $more
    same "$program of text for a plan" 'refused 11 0\n' '' $bin $junction "$work/text" $more
    same "$program of a megabyte for a junction" 'refused 1 0\n' '' $bin "$work/megabyte" $plan $more
    same "$program of a megabyte for a plan" 'refused 12 0\n' '' $bin $junction "$work/megabyte" $more
    same "$program with its input closed" "$answer" '' sh -c "$bin $junction $plan $more <&-"
    same "$program to a full output" '' "$program: standard output: No space left on device\n" sh -c "$bin $junction $plan $more > /dev/full"
    same "$program to a closed output" '' "$program: standard output: Bad file descriptor\n" sh -c "$bin $junction $plan $more >&-"
done

# Portable signals, with each refusal; digits alone are numbers, however many there are, and zeros may stand before them.
portable=target/bin/portable
usage='usage: portable STRETCH SPEED FLOW S WAITING FLOW S WAITING\nstretch and available waiting lengths in m, flows and saturation flows in E/h, approach 1 before approach 2;\nspeed in km/h: the mean speed of clearing cars, measured on the site or assumed by the annex\n'
answer='t 14.4\nL 32.8\ncycle 99\n1 0 33\n2 51 30\n'
digits=$(head -c 4000 /dev/zero | tr '\000' 9)
same "portable" "$answer" '' $portable 100 30 400 1800 67 380 1800 63
same "portable with zeros before its numbers" "$answer" '' $portable 0100 030 0400 001800 067 380 1800 00063
same "portable with waiting lengths of 4,000 digits" "$answer" '' $portable 100 30 400 1800 $digits 380 1800 $digits
same "portable at 80 m and 40 km/h" 't 9.0\nL 22.0\ncycle 58\n1 0 17\n2 29 17\n' '' $portable 80 40 300 1800 30 300 1800 30
for stretch in 0 9 95 301 310 $digits 18446744073709551716; do
    same "portable for a stretch of $stretch" 'refused 25 0\n' '' $portable $stretch 30 400 1800 67 380 1800 63
done
for flow in 0 10000 65936 $digits 18446744073709552016; do
    same "portable for a flow of $flow" 'refused 26 0\n' '' $portable 100 30 $flow 1800 67 380 1800 63
    same "portable for a second S of $flow" 'refused 26 0\n' '' $portable 100 30 400 1800 67 380 $flow 63
done
same "portable for 900 of 1,800 twice" 'refused 21 0\n' '' $portable 100 30 900 1800 999 900 1800 999
same "portable for an optimum of 181 s" 'refused 22 0\n' '' $portable 300 25 140 1800 999 140 1800 999
same "portable with 66 m to wait" 'refused 27 0\n' '' $portable 100 30 400 1800 66 380 1800 63
same "portable with 62 m to wait" 'refused 27 0\n' '' $portable 100 30 400 1800 67 380 1800 62
for word in '' - -1 +100 1.5 100m ' 100' '100 ' 0x64 $digits$digits; do
    same "portable for a stretch of '$word'" '' "$usage" $portable "$word" 30 400 1800 67 380 1800 63
    same "portable for a last number of '$word'" '' "$usage" $portable 100 30 400 1800 67 380 1800 "$word"
done
same "portable without arguments" '' "$usage" $portable
same "portable with seven numbers" '' "$usage" $portable 100 30 400 1800 67 380 1800
same "portable with nine numbers" '' "$usage" $portable 100 30 400 1800 67 380 1800 63 1
same "portable --help" '' "$usage" $portable --help
same "portable to a full output" '' 'portable: standard output: No space left on device\n' sh -c "$portable 100 30 400 1800 67 380 1800 63 > /dev/full"
same "portable to a closed output" '' 'portable: standard output: Bad file descriptor\n' sh -c "$portable 95 30 400 1800 67 380 1800 63 >&-"

[ $failed = 0 ] && echo "programs: judge, plan, shift, delay, portable and intergreens write what they should"
exit $failed
