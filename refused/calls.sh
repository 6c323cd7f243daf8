#!/bin/sh
# refused/calls.sh: has each growth refused in turn that a public call of a library asks for: kernels, memories, texts, steps and their
# parts, books, batches, blocks, passes of the machine, its calls, and new machines. It says what came of it.
# It runs the tests of the files refused.rt of these crates that `rt test` or `./test` built, once for each growth. A test fails where
# a refused growth is anything but a want of memory that changed nothing, and in batches where it comes to more than one call, but for
# a history that could not be reserved. The batch and the pass with an empty vector must also be served once with a joined run refused
# and every call answered, and batches of few alike calls behind others of their kind must ask for no growth. Status 1: something was not so; 2: the tests are not built; 3: nothing was tried, since there is no cc.
cd "$(dirname "$0")/.." || exit 1
crates='kernel_tests call_tests batch_tests machine_tests'
for crate in $crates; do
    [ -x "crates/$crate/out/${crate}_tests" ] || { echo "refused: the tests of $crate are not built" >&2; exit 2; }
done
command -v cc > /dev/null || { echo "refused: not run, since there is no cc"; exit 3; }
made=$(mktemp -d) || exit 1
trap 'rm -rf "$made"' EXIT
cc -shared -fPIC -O1 -o "$made/refuse.so" refused/refuse.c -ldl || exit 1

status=0 all=0

# Runs a test of a crate with one growth refused: what it printed goes to "said", how many growths it asked for to "count".
run() {
    REFUSE=$3 LD_PRELOAD=$made/refuse.so "$PWD/crates/$1/out/$1_tests" "$2" > "$made/said" 2> "$made/errors" 3> "$made/count"
}

# Runs a test of a crate once for each growth.
refuse_each() {
    growth=0 more=1
    : > "$made/ways"
    while [ "$more" -ge "$growth" ]; do
        growth=$((growth + 1))
        if ! run "$1" "$2" "$growth"; then
            echo "refused: $2 of $1 fails where growth $growth is refused"
            cat "$made/said" "$made/errors"
            status=1
        fi
        more=$(cat "$made/count")
        [ -n "$more" ] || { echo "refused: nothing was counted in $2 of $1"; exit 1; }
        sed -n -e 's/.* waves, .*/&/p' -e '/^ *made or refused/p' "$made/said" >> "$made/ways"
    done
    all=$((all + growth - 1))
    echo "refused: $2 of $1, $((growth - 1)) growths"
    sort "$made/ways" | uniq -c
}

for crate in $crates; do
    tests=$("crates/$crate/out/${crate}_tests" --list | sed -n 's/^\([a-z:_]*refused::[a-z:_]*\): test$/\1/p')
    [ -n "$tests" ] || { echo "refused: no test was found in $crate"; status=1; }
    for test in $tests; do
        refuse_each "$crate" "$test"
        case $test in *::joins_with_an_empty_vector)
            grep -q '^ *1 waves, 2 kernels, \(2 singles, \)\{0,1\}0 back$' "$made/ways" || { echo "refused: no group ran call by call"; status=1; } ;;
        *_take_nothing_more)
            [ "$growth" -eq 1 ] || { echo "refused: a batch of few alike calls that had its like asked for memory"; status=1; } ;;
        esac
    done
done
echo "refused: $all growths in all"
exit $status
