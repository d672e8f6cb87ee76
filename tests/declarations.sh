#!/bin/sh
# Holds include/givendra.h and givendra-sys to the crates givendra and givendra_c: the same structs, member by member, and the same functions,
# parameter by parameter. All three are brought to Rust's words, a struct or a function to a line, without spaces.
cd "$(dirname "$0")/.." || exit 1
work=$(mktemp -d) || exit 1
trap 'rm -rf "$work"' EXIT
failed=0

# lines: a line for each @.
lines() { tr -d ' \n' | tr @ '\n' | sed 's/,)/)/' | sort; }

# To C, a slice of the crate is a pointer and a length. An approach is a struct of the crate roadworks.
awk '/^pub struct/, /^}/' crates/givendra/src/lib.rt > "$work/library"
awk '/^pub extern "C" fn/, /->/' crates/givendra_c/src/lib.rt >> "$work/library"
awk '/^#\[repr\(C\)\]$/, /^}/ { if (!/^#/) print }' crates/roadworks/src/lib.rt >> "$work/library"
sed -E '
    s/^pub (extern "C" )?(fn|struct)/@\2/
    s/^ *pub //
    s/(\w+): &\[(\w+)\]/\1: *const \2, \1_length: usize/g
    s/(\w+): &mut \[(\w+)\]/\1: *mut \2, \1_length: usize/g' "$work/library" | lines > "$work/crate"

awk '/^pub struct/, /^}/; /^ *pub fn/, /;$/' givendra-sys/src/lib.rs | sed -E '
    s/^ *pub (fn|struct)/@\1/
    s/^ *pub //
    s/;$//' | lines > "$work/givendra-sys"

# The header's declarations of the library stand in its block extern "C". Outside it are functions that the caller compiles, and their structs: no
# function that is only declared.
awk '/^extern "C" \{$/, /^}$/' include/givendra.h > "$work/block"
awk '/^extern "C" \{$/, /^}$/ { next } /^static inline [^;]*$/, /^}$/ { next } /^[^ #\/].*[(;]/ && !/^};$/' include/givendra.h > "$work/out"
[ ! -s "$work/out" ] || { echo "declarations: the header declares outside its block extern \"C\":"; cat "$work/out"; failed=1; }

# C has the type first; its struct givendra_judge_answer is Rust's JudgeAnswer.
awk '/^struct [a-z_]* {$/, /^};/; /^[a-z].*\(/, /;$/' "$work/block" | sed -E '
    s| */\*.*||
    s/^(struct \w+ \{)$/@\1/
    s/^\};$/}/
    s/^ +(\w+) (\w+);$/\2: \1,/
    s/^(.+) (\w+)\((.*)\);$/@fn \2(\3) -> \1/
    s/\(void\)/()/
    s/const (struct \w+|\w+) \*(\w+)/\2: *const \1/g
    s/(\w+) \*(\w+)([,)])/\2: *mut \1\3/g
    s/(size_t|uint[0-9]+_t|struct \w+) (\w+)([,)])/\2: \1\3/g
    s/size_t/usize/g
    s/uint([0-9]+)_t/u\1/g
    s/double/f64/g
    s/struct givendra_/struct _/g
    :name
    s/(struct \w*)_(\w)/\1\u\2/
    t name
    s/([^@])struct /\1/g' | lines > "$work/header"

for declared in givendra-sys header; do
    diff "$work/crate" "$work/$declared" > "$work/out" || { echo "declarations: $declared (>) is not as the crate (<):"; cat "$work/out"; failed=1; }
done
[ $failed = 0 ] && echo "declarations: $(grep -c ^struct "$work/crate") structs and $(grep -c ^fn "$work/crate") functions are declared alike by the crate, givendra-sys and the header"
exit $failed
