#!/bin/sh
# refused/run.sh: has all that the system may refuse refused, one in each run: growths of the calls of the libraries (calls.sh) and
# of the example of two threads (two_threads.sh), then growths, threads, reads and writes of the program (program.sh). Status as
# theirs: 1: something was not so; 2: something is not built; 3: nothing was tried, since there is no cc.
cd "$(dirname "$0")" || exit 1
./calls.sh
status=$?
./two_threads.sh || { threads=$?; [ "$status" -ne 0 ] || status=$threads; }
./program.sh || { program=$?; [ "$status" -ne 0 ] || status=$program; }
exit "$status"
