#!/bin/sh
# mutations.sh [NAME..]: changes the code and the definitions alike, so that code and contract agree, and looks at which theorem refuses. Each file
# of tests/mutations/ is one change: lines `FILES: SED-COMMANDS`, and lines `# refused: CRATE THEOREM` or `# printed: CRATE`. It is made in a copy of
# the repository, and what it touches is proved again: each THEOREM must be among what is not accepted in its CRATE, every function of every
# crate must be proved, and so must every crate that is not named; where CRATE is a program, what it prints must no longer be its file stdout. It
# takes from 20 s to 4 minutes for each, so the test command does not run it; `rt all check` comes first.
cd "$(dirname "$0")/.." || exit 1
root=$PWD
work=$(mktemp -d) || exit 1
trap 'rm -rf "$work"' EXIT
failed=0

# applied FILE: makes the change in the copy; each line must change each file that it names.
applied() {
    while IFS= read -r line; do
        case $line in '' | '#'*) continue ;; esac
        for file in ${line%%: *}; do
            cp "$file" before
            sed -i "${line#*: }" "$file"
            ! cmp -s before "$file" || { echo "mutations: $1: changes nothing in $file"; return 1; }
        done
    done < "$root/tests/mutations/$1"
    rm -f before
}

# tried NAME: whether the change is refused where its file says.
tried() {
    [ -f "$root/tests/mutations/$1" ] || { echo "mutations: no file tests/mutations/$1"; return 1; }
    cd "$root" && rm -rf "$work/copy" && mkdir "$work/copy" && tar -cf - --exclude='crates/*/out' crates crates.txt | tar -xf - -C "$work/copy" || return 1
    cd "$work/copy" && applied "$1" || return 1
    sed -n 's/^# refused: //p' "$root/tests/mutations/$1" > theorems
    sed -n 's/^# printed: //p' "$root/tests/mutations/$1" > programs
    [ -s theorems ] || [ -s programs ] || { echo "mutations: $1: names no theorem and no program"; return 1; }
    # What rt says of a crate is said after what it says of those below, as far as they are proved.
    for crate in $(cut -d ' ' -f 1 theorems programs | sort -u); do
        (cd "crates/$crate" && rt check) > "$crate.log" 2>&1
        awk '/^crate / { sub(":", "", $2); crate = $2 } /^logic=not-proved/ { print crate; said = 1 } /^logic=/ { crate = "" }
            END { if (crate != "") print crate }' "$crate.log" > refused
        while read -r other; do
            grep -q "^$other " theorems || { echo "mutations: $1: $other is not proved"; return 1; }
        done < refused
        ! grep '^fn .*: \(not proved\|no proof\|could not tell\)' "$crate.log" || { echo "mutations: $1: code and definition differ"; return 1; }
    done
    while read -r crate name; do
        grep -q -e "error: \`$name\`" -e "not checked: \(.* \)\{0,1\}$name\($\|[ ,]\)" "$crate.log" || { echo "mutations: $1: $crate does not refuse it at $name"; return 1; }
        echo "mutations: $1: refused by $name of $crate"
    done < theorems
    while read -r crate; do
        (cd "crates/$crate" && rt run 2> "../../$crate.log" < /dev/null) > printed && ! cmp -s printed "crates/$crate/stdout" ||
            { echo "mutations: $1: $crate prints the same"; return 1; }
        echo "mutations: $1: refused by what $crate prints"
    done < programs
}

for name in ${*:-$(ls tests/mutations)}; do
    (tried "$name") || failed=1
done
exit $failed
