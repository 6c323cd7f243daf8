#!/bin/sh
# docs/examples.sh check|write
# The examples in PROFILE.md's tables of calls and in ERRORS.md, as the scripts that worked_examples runs. 'write' makes
# the scripts anew, 'check' says which of them are not what the tables have; status 1: some are not. 'check' also compares the
# call words that ARCHITECTURE.md names as those that no batch joins with those that a test of batch_flatten sees run alone.
case "$1" in
    check | write) ;;
    *) echo "usage: docs/examples.sh check|write" >&2; exit 2 ;;
esac
cd "$(dirname "$0")" || exit 1
made=$(mktemp -d) || exit 1
trap 'rm -rf "$made"' EXIT

# Splits rows of a table at their bars, and cells into what stands between backquotes.
rows='
BEGIN { FS = " *[|] *" }
# The n-th text between backquotes in a cell.
function code(cell, n,  parts, count) {
    count = split(cell, parts, "`")
    return 2 * n <= count ? parts[2 * n] : ""
}
# All texts between backquotes in a cell, parted by " / ".
function lines(cell,  parts, count, n, all) {
    count = split(cell, parts, "`")
    for (n = 2; n <= count; n += 2) all = all (n > 2 ? " / " : "") parts[n]
    return all
}
/^## / { part = $0 }
# A row may do without the bars at its ends.
/[|]/ && !/^[|]/ { $0 = "| " $0 " |" }
'

# The lines of a script that makes each call of the card, or with text=1 the text that answers it.
calls() {
    awk -v text="$1" "$rows"'
    function put(line, reply) { print text ? "0 " reply : "0: " line }
    BEGIN {
        if (!text) {
            print "# Each form of set and each call word once, in the order of the tables in docs/PROFILE.md, which has what each gives."
            print "# Source: written by docs/examples.sh from those tables."
        }
    }
    /^### Which calls run a kernel/ { exit }
    part != "## Calls" || $2 !~ /^`/ { next }
    # A name and its value. A segment list is made from a vector of its lengths.
    NF == 5 {
        name = code($2, 1); value = code($3, 1)
        if (sub(/^s/, "z", value)) { put(name " = " value, "ok"); put(name " = mke_fov " name, "ok") }
        else put(name " = " value, "ok")
    }
    # A call, alone or where numbers stand in the line in the example, and what it gives.
    NF == 7 {
        call = code($2, 1); value = code($6, 1)
        if (code($6, 2) != "") { call = value; value = code($6, 2) }
        if (call ~ /^d = /) { put(call, "ok"); put("get d", value) }
        else put(call, value)
    }' PROFILE.md
}

# The rows of ERRORS.md with a script: arguments, script, text, status.
errors() {
    awk "$rows"'
    function put(arguments, script, text, status) { print arguments "\t" script "\t" text "\t" status }
    $2 ~ /^-/ { next }
    part == "## Faults" && code($5, 1) != "" { put(code($4, 1) ~ /^serial / ? code($4, 1) : "serial", lines($5), lines($6), 0) }
    part == "## Bad lines" && code($3, 1) != "" { put("serial", code($3, 1), "bad line 1", 2) }
    part == "## Bad lines of edition 2" && code($3, 1) != "" { put("serial", lines($3), lines($4), 2); put("threads", lines($3), lines($4), 2) }
    ' ERRORS.md
}

calls "" > "$made/calls.cvl" && calls 1 > "$made/calls.out" && errors > "$made/errors.txt" || exit 1
# The call words of the sentence in ARCHITECTURE.md that begins "The calls of all words but", each on a line.
told_alone() {
    awk '
    /^The calls of all words but / { on = 1 }
    on {
        end = index($0, ".")
        count = split(end ? substr($0, 1, end) : $0, parts, "`")
        for (n = 2; n <= count; n += 2) print parts[n]
        if (end) exit
    }' ARCHITECTURE.md | sort
}

# The same of the test's table: those of its first calls.
seen_alone() {
    awk '
    /const ALONE/ { alone = $NF + 0 }
    /const CALLS/ { on = 1; next }
    /^];/ { on = 0 }
    on && count < alone { match($0, /[a-z][a-z][a-z]_[a-z][a-z][a-z]|get/); print substr($0, RSTART, RLENGTH); count++ }
    ' ../crates/batch_tests/src/table.rt | sort
}

status=0
for name in calls.cvl calls.out errors.txt; do
    if [ "$1" = write ]; then
        cp "$made/$name" "../examples/$name" || status=1
    elif ! cmp -s "$made/$name" "../examples/$name"; then
        echo "examples/$name is not what the tables in docs/ have" >&2
        status=1
    fi
done
told_alone > "$made/told.txt" && seen_alone > "$made/seen.txt" || exit 1
if ! cmp -s "$made/told.txt" "$made/seen.txt" || [ ! -s "$made/told.txt" ]; then
    echo "the call words that ARCHITECTURE.md says are not joined are not those of crates/batch_tests/src/table.rt" >&2
    status=1
fi
exit $status
