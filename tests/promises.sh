#!/bin/sh
# promises.sh [FILE]: holds what the documents name in backticks to what is there. FILE, where it is given, stands for docs/PROMISES.md.
# - Public functions: each `pub fn` of each crates/*/src/lib.rt stands in the first column of the table in the section "Public functions", and each
#   name there is such a function. A row names `CRATE::FUNCTION`, and then further functions of that crate by their names alone; a name with no crate
#   before it is of the crate with whose name it begins (`givendra_judge`). A crate that the section calls "Crate `NAME`" has its
#   functions told of there, and needs no row.
# - Definitions and theorems: in `FILE.antt`: `NAME`, `NAME`, in `NAME` of `FILE.antt` and in `NAME` (`FILE.antt`) that file declares the name; in
#   `NAME` (`CRATE`) that crate does. With a file of specs/ goes the one of the same name in proofs/, where its crate has that.
# - Functions: `CRATE::FUNCTION` is one.
# - Any other name with an underscore is declared so by some crate, or is a function, a crate, a must-fail edit or a name of the header
#   include/givendra.h. No name but a file's has a hyphen, or a capital inside.
# - Must-fail edits: `CRATE/LABEL` is crates/CRATE/must-fail/LABEL.edit; in a column "edit" further names are labels of that crate.
# - Files: each path is one from the root, from crates/ or in a crate. A path with a word in capitals (crates/NAME) stands for many, and target/ is
#   made. The documents are README.md, CONTRIBUTING.md and docs/*.md; docs/releases/ and docs/PORT.md tell of the past.
cd "$(dirname "$0")/.." || exit 1
promises=${1:-docs/PROMISES.md}
[ -f "$promises" ] || { echo "promises: no file $promises"; exit 1; }
work=$(mktemp -d) || exit 1
trap 'rm -rf "$work"' EXIT

# What is there, a line for each: `path PATH`, `fn CRATE::FUNCTION`, `pub CRATE::FUNCTION`, `name FILE NAME`, `c NAME`.
{
    find . \( -path ./target -o -path ./.git -o -path './crates/*/out' \) -prune -o -print | sed -n 's|^\./|path |p'
    for file in crates/*/src/*.rt; do
        crate=${file#crates/} crate=${crate%%/*}
        sed -n "s/^ *\(pub \)\{0,1\}\(extern \"C\" \)\{0,1\}fn \([A-Za-z0-9_]*\).*/fn $crate::\3/p" "$file"
        case $file in */lib.rt) sed -n "s/^pub \(extern \"C\" \)\{0,1\}fn \([A-Za-z0-9_]*\).*/pub $crate::\2/p" "$file" ;; esac
    done
    grep -o '[a-z0-9]*_[a-z0-9_]*' include/givendra.h | sort -u | sed 's/^/c /'
    for file in $(find crates -path 'crates/*/out' -prune -o -name '*.antt' ! -path 'crates/*/proofs/*/Answers.antt' -print); do
        awk -v file="$file" '{
            sub(/^ +/, "")
            while (sub(/^(unfoldable|abbrev|pub) /, "")) continue
            if (sub(/^(record|data) /, "") || $2 == ":") print "name", file, $1
        }' "$file"
    done
} > "$work/there"

others=
for file in README.md CONTRIBUTING.md docs/*.md; do
    [ "$file" = docs/PROMISES.md ] || [ "$file" = docs/PORT.md ] || [ ! -f "$file" ] || others="$others $file"
done

awk -v promises="$promises" '
function missing(n, what) {
    print "promises: " document ":" line[n] ": " what
    failed = 1
}

function folder(path) { sub(/\/[^\/]*$/, "", path); return path }
function last(path) { sub(/.*[\/:]/, "", path); return path }
function first(words) { sub(/[ :].*/, "", words); return words }

# the file that a path names, "" where there is none; a bare name may be that of a file beside the one named before it
function found(path, p, pattern) {
    sub(/\/$/, "", path)
    if (path ~ /\/specs\//) {
        if (path in paths) return path
        if (("crates/" path) in paths) return "crates/" path
        path = sister(path)
    }
    if (path in paths) return path
    if (("crates/" path) in paths) return "crates/" path
    if (path in in_a_crate) return in_a_crate[path]
    if ((beside "/" path) in paths) return beside "/" path
    if (path in by_name) return by_name[path]
    if (path ~ /\*/) {
        pattern = path
        gsub(/\./, "[.]", pattern)
        gsub(/\*/, "[^/]*", pattern)
        for (p in paths) if (p ~ ("^" pattern "$")) return p
    }
    return ""
}

# the file of the same name in proofs/, of a path in specs/
function sister(path) { sub(/\/specs\//, "/proofs/", path); return path }

# the name of word n, of which `reading s` has the first word, is declared in a file or crate
function declared(n, where) {
    names++
    if (!((where " " first(word[n])) in declares) && !((sister(where) " " first(word[n])) in declares)) missing(n, where " declares no " first(word[n]))
}

function edit(n, crate, label) {
    edits++
    if (!(("crates/" crate "/must-fail/" label ".edit") in paths)) missing(n, "no must-fail edit " crate "/" label)
}

# one paragraph or table row: word[1] to word[count] stood in backticks, with the text before each, its column and its line
function looked_at(n, w, c, crate, crate_of_edits, file, listing) {
    file = beside = ""
    for (n = 1; n <= count; n++) {
        w = word[n]
        if (column[n] != column[n - 1]) crate = crate_of_edits = ""
        listing = before[n] == ": " && word[n - 1] ~ /\.antt$/ || listing && before[n] ~ /^,? (and )?$/

        # a name with its file or crate after it
        if (n < count && before[n + 1] ~ /^,? (of |\()$/ && w !~ /[\/.:]/) {
            if (word[n + 1] ~ /\.antt$/ && found(word[n + 1]) != "") {
                declared(n, found(word[n + 1]))
                continue
            }
            if (before[n + 1] == " (" && before[n + 2] ~ /^\)/ && first(w) in declared_somewhere) {
                if (word[n + 1] in crates) declared(n, "crates/" word[n + 1])
                else missing(n, "no crate " word[n + 1])
                continue
            }
        }

        if (document == promises && section == "Public functions" && before[n] ~ /Crate $/) {
            for_tests[w] = 1
            if (!(w in crates)) missing(n, "no crate " w)
        } else if (document == promises && section == "Public functions" && column[n] == 1) {
            if (w ~ /::/) crate = first(w)
            else if (crate == "") for (c in crates) if (index(w, c "_") == 1) crate = c
            functions++
            listed[crate "::" last(w)] = 1
            if (!((crate "::" last(w)) in public)) missing(n, "no public function " crate "::" last(w))
        } else if (w ~ /^[a-z0-9_]+::[A-Za-z0-9_]+$/) {
            if (first(w) ~ /^(std|check|libc|io|os|bytes)$/) continue
            functions++
            if (!(w in fns)) missing(n, "no function " w)
        } else if (listing && file != "" && w ~ /^[A-Za-z][A-Za-z0-9_-]*$/) {
            declared(n, file)
        } else if (edits_table && column[n] == 2 && w ~ /^[a-z0-9_]+$/) {
            edit(n, crate_of_edits, w)
        } else if (w ~ /^[a-z0-9_]+\/[a-z0-9_]+$/ && folder(w) in crates && found(w) == "") {
            crate_of_edits = folder(w)
            edit(n, crate_of_edits, last(w))
        } else if (w ~ /^[A-Za-z0-9_.*\/-]+$/ && w ~ /\/|\.(md|sh|antt|rt|rs|c|h|txt|toml|edit|junction|plan)$/) {
            if (w ~ /(^|\/)[A-Z]+(\/|\.edit$|\.antt$|$)/ || w ~ /^target(\/|$)/) continue
            files++
            if (found(w) == "") missing(n, "no file " w)
            if (w ~ /\.antt$/) {
                file = found(w)
                beside = folder(file)
            }
        } else if (w ~ /^[a-z][a-z0-9]*(-[a-z0-9]+)+$/ || w ~ /^[a-z][a-z0-9]*[A-Z][A-Za-z0-9]*$/) {
            if (w in paths) continue
            names++
            if (!(w in declared_somewhere)) missing(n, "no file declares " w)
        } else if (w ~ /^[a-z0-9]+(_[a-z0-9]+)+$/) {
            if (w in declared_somewhere) {
                names++
                continue
            }
            functions++
            if (!(w in by_name) && !(w in crates) && !(w in in_header)) missing(n, "no definition, function, crate or must-fail edit " w)
        }
    }
    count = 0
    before[1] = ""
}

NR == FNR {
    n = split($2, part, "/")
    if ($1 == "path") {
        paths[$2] = 1
        by_name[part[n]] = $2
        sub(/\.edit$/, "", part[n])
        by_name[part[n]] = $2
        if (n == 2 && part[1] == "crates") crates[part[2]] = 1
        if (n > 2 && part[1] == "crates") in_a_crate[substr($2, length("crates//" part[2]) + 1)] = $2
    }
    if ($1 == "pub") public[$2] = 1
    if ($1 == "fn") fns[$2] = by_name[last($2)] = 1
    if ($1 == "c") in_header[$2] = 1
    if ($1 == "name") declares[$2 " " $3] = declares["crates/" part[2] " " $3] = declared_somewhere[$3] = 1
    next
}

FNR == 1 { looked_at(); document = FILENAME; section = ""; fenced = 0 }
/^ *```/ { fenced = !fenced; next }
fenced { next }
/^#/ { looked_at(); section = $0; sub(/^#+ */, "", section) }
/^\|/ || /^ *(-|[0-9]+\.) / { looked_at() }
/^ *$/ { looked_at(); edits_table = 0; next }
/^\|[^|]*\| edit \|/ { edits_table = 1 }
{
    n = split($0, span, "`")
    if (n % 2 == 0) { print "promises: " document ":" FNR ": a backtick without its pair"; failed = 1 }
    bars = 0
    for (i = 1; i <= n; i++) {
        if (i % 2) {
            if (/^\|/) bars += gsub(/\|/, "|", span[i])
            before[count + 1] = i > 1 ? span[i] : before[count + 1] " " span[i]
            gsub(/[ \t]+/, " ", before[count + 1])
        } else {
            word[++count] = span[i]
            column[count] = bars
            line[count] = FNR
        }
    }
}

END {
    looked_at()
    for (f in public) if (!(f in listed) && !(first(f) in for_tests)) {
        print "promises: " promises ": the table of public functions has no " f
        failed = 1
    }
    if (!failed) print "promises: each public function is listed; " functions + 0 " functions, " names + 0 " definitions and theorems, " \
        edits + 0 " must-fail edits and " files + 0 " files that the documents name are there"
    exit failed
}
' "$work/there" "$promises" $others > "$work/out"
status=$?
sort -t : -k 2,2 -k 3,3n "$work/out"
exit $status
