#!/bin/sh
# docs/turns.sh ROUNDS OLD NEW ARGUMENTS..: measures two builds of crates/bench/out/bench in turns, with the same arguments, such
# as `kernels` or `shared T=1`. Prints a line for each row that both print: its name, the middle of OLD's values over the rounds,
# the middle of NEW's, and NEW's by OLD's. Kernels, batches and latencies are times, so less is better; the machine's are rates.
[ $# -ge 4 ] || { sed -n '2,4s/^# //p' "$0" >&2; exit 2; }
rounds=$1 old=$2 new=$3
shift 3
lines=$(mktemp) || exit 1
trap 'rm -f "$lines"' EXIT

# The rows of a build, each as its name, the build and the value.
rows() {
    build=$1
    shift
    "$@" | awk -F '\t' -v build="$build" 'NF >= 4 { print $1 " " $2 "\t" build "\t" $4 }' >> "$lines"
}

round=0
while [ "$round" -lt "$rounds" ]; do
    # Each is first in every second round.
    if [ $((round % 2)) -eq 0 ]; then
        rows old "$old" "$@" && rows new "$new" "$@"
    else
        rows new "$new" "$@" && rows old "$old" "$@"
    fi
    round=$((round + 1))
done

# The middle of so many sorted values is the one in the middle, or the mean of the two there.
sort -t "$(printf '\t')" -k 1,2 -k 3,3g "$lines" | awk -F '\t' '
    function middle() { return count % 2 ? at[(count + 1) / 2] : (at[count / 2] + at[count / 2 + 1]) / 2 }
    function close_row() { if (count) found[row, build] = middle(); count = 0 }
    $1 != row || $2 != build { close_row(); if ($1 != row && !($1 in seen)) { seen[$1]; names[++many] = $1 } row = $1; build = $2 }
    { at[++count] = $3 }
    END {
        close_row()
        for (i = 1; i <= many; i++) {
            one = names[i]
            if (found[one, "old"] > 0 && (one, "new") in found)
                printf "%-44s %12.6g %12.6g %6.3f\n", one, found[one, "old"], found[one, "new"], found[one, "new"] / found[one, "old"]
        }
    }'
