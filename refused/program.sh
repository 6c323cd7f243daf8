#!/bin/sh
# refused/program.sh: runs the built program, or the one that CVL_PROGRAM names, on the examples, but for the long ones of every call, and on the scripts beside this
# file, with one growth, start of a thread, read or write refused in each run, and with each script cut at each byte. A run must
# end with the text of some first lines and the status of what was refused; nothing may be lost or told wrongly.
# Status 1: something was not so; 2: the program is not built; 3: nothing was tried, since there is no cc.
cd "$(dirname "$0")/.." || exit 1
program=${CVL_PROGRAM:-$PWD/crates/cvl/out/cvl}
[ -x "$program" ] || { echo "refused: $program is not built" >&2; exit 2; }
command -v cc > /dev/null || { echo "refused: not run, since there is no cc"; exit 3; }
made=$(mktemp -d) || exit 1
trap 'rm -rf "$made"' EXIT
cc -shared -fPIC -O1 -o "$made/break.so" refused/program/break.c -ldl || exit 1
cc -O1 -o "$made/run" refused/program/main.c refused/program/run.c refused/program/text.c || exit 1

# Two callers with a hundred calls each: one adds 1 2, the other 3 4, 97 times.
two=$made/two_callers
for caller in 0 1; do
    awk -v k="$caller" 'BEGIN {
        printf "%d: y%d = z %d %d\n%d: x%d = z 0 0\n", k, k, 2 * k + 1, 2 * k + 2, k, k
        for (turn = 0; turn < 97; turn++) printf "%d: x%d = add_wuz x%d y%d\n", k, k, k, k
        printf "%d: get x%d\n", k, k
    }'
done > "$two.cvl"
{
    awk 'BEGIN {
        for (turn = 0; turn < 99; turn++) print "0 ok"
        print "0 z 97 194"
        for (turn = 0; turn < 99; turn++) print "1 ok"
        print "1 z 291 388"
    }'
    printf '%s\n' 'x0 z 97 194' 'x1 z 291 388' 'y0 z 1 2' 'y1 z 3 4' 'history 200' 'audit ok'
} > "$two.threads.out"

# Of each output the mode and the script that it belongs to.
set --
for output in examples/*.out refused/scripts/*.out "$two".threads.out; do
    case $output in
        examples/every_*) continue ;;
        *.threads.out) mode=threads script=${output%.threads.out}.cvl ;;
        *) mode=serial script=${output%.out}.cvl ;;
    esac
    [ -f "$script" ] || script=${output%.out}.cvl
    set -- "$@" "$mode" "$script" "$output"
done
exec "$made/run" "$program" "$made/break.so" "$@"
