#!/bin/sh
# Runs programs against limits of instructions, pages and output on the machine and on the three C interpreters, and
# compares ending, cost, pages and output. Prints a line a run.
set -eu
here=$(cd "$(dirname "$0")" && pwd)
out=$here/../out
run=${RVRUN:-$here/../../crates/rvrun/out/rvrun}
[ -x "$run" ] || { echo "skipped: $run is not there; build it by './farm --build rvrun', or name it in RVRUN"; exit 0; }
"$here/../programs/build.sh" || { [ $? = 77 ] && exit 0; exit 1; }
for name in cached threaded paged; do gcc -O2 -Wall -Wextra -o "$out/$name" "$here/$name.c"; done
cat "$here"/../programs/*.c >"$out/source.txt"
# the smallest images: exit, a jump to itself, and a word that is no instruction
printf '\223\010\320\005\163\000\000\000' >"$out/exit.rv32"
printf '\157\000\000\000' >"$out/loop.rv32"
printf '\000\000\000\000' >"$out/zero.rv32"

failed=0
while read -r name instructions pages bytes; do
    for which in "$run" "$out/cached" "$out/threaded" "$out/paged"; do
        "$which" --instructions "$instructions" --pages "$pages" --output "$bytes" "$out/$name.rv32" \
            <"$out/source.txt" >"$out/wrote" 2>"$out/ending"
        echo "$(sed 's/ load.*//' "$out/ending"), $(wc -c <"$out/wrote") bytes, sum $(cksum <"$out/wrote" | cut -d' ' -f1)"
    done | sort -u >"$out/answers"
    if [ "$(wc -l <"$out/answers")" = 1 ]; then result=same; else result=DIFFERENT failed=1; fi
    echo "$name, $instructions instructions, $pages pages, $bytes bytes: $result, $(cat "$out/answers")"
done <<'ROWS'
exit 2 1 0
exit 1 1 0
loop 1000 1 0
zero 5 1 0
exit 5 0 0
walk 1 100 100
walk 12345 100 100
walk 1000000 5 100
walk 1000000 1 100
division 100000000 2 96012
division 100000000 2 96011
division 903242 2 96012
division 903243 2 96012
echo 9000 2 100000
echo 100000000 2 1000
memory 100000000 64 1000
sorting 100000000 20 100000
calls 400000 9 1000
patching 10000000 9 1000
patching 30000 9 1000
pages 100000000 5001 1000
pages 100000000 5000 1000
pages 100000 6000 1000
ROWS
exit $failed
