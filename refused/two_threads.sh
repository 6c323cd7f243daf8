#!/bin/sh
# refused/two_threads.sh: runs the example of two threads, whose calls run at once where the book is free, with each growth of it
# refused, one in each run. A run must end, and say the whole sum or that not all was done.
# Status 1: something was not so; 2: the example is not built; 3: nothing was tried, since there is no cc.
cd "$(dirname "$0")/.." || exit 1
program=$PWD/crates/two_threads/out/two_threads
[ -x "$program" ] || { echo "refused: $program is not built" >&2; exit 2; }
command -v cc > /dev/null || { echo "refused: not run, since there is no cc"; exit 3; }
made=$(mktemp -d) || exit 1
trap 'rm -rf "$made"' EXIT
cc -shared -fPIC -O1 -o "$made/refuse.so" refused/refuse.c -ldl || exit 1

status=0 growth=0 more=1 whole=0 told=0
while [ "$more" -ge "$growth" ]; do
    growth=$((growth + 1))
    said=$(REFUSE=$growth REFUSE_ALL=1 LD_PRELOAD=$made/refuse.so timeout 10 "$program" 3> "$made/count")
    case "$? $said" in
        '0 sum 300, history 204') whole=$((whole + 1)) ;;
        '0 not all was done') told=$((told + 1)) ;;
        *) echo "refused: two_threads says '$said' where growth $growth is refused"; status=1 ;;
    esac
    more=$(cat "$made/count")
    [ -n "$more" ] || { echo "refused: nothing was counted in two_threads"; exit 1; }
done
echo "refused: two_threads, $((growth - 1)) growths: $told times not all was done, $whole times the whole"
exit "$status"
