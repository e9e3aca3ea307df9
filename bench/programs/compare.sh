#!/bin/sh
# Runs each program on the machine (rvrun) and, as a Linux program, under qemu-riscv32, and compares what they write
# and the code that they exit with. Prints a line a run; skipped where a tool is missing.
set -eu
here=$(cd "$(dirname "$0")" && pwd)
out=$here/../out
run=${RVRUN:-$here/../../crates/rvrun/out/rvrun}
command -v qemu-riscv32 >/dev/null || { echo "skipped: qemu-riscv32 is not installed (Debian: apt-get install qemu-user)"; exit 0; }
[ -x "$run" ] || { echo "skipped: $run is not there; build it by './farm --build rvrun', or name it in RVRUN"; exit 0; }
"$here/build.sh" || { [ $? = 77 ] && exit 0; exit 1; }

head -c 100000 /dev/zero | tr '\0' 'x' >"$out/long.txt"
cat "$here"/*.c "$here"/*.h >"$out/source.txt"
: >"$out/empty.txt"
printf '\023\005\165\002\147\200\000\000' >"$out/code.txt" # addi a0, a0, 39; ret
failed=0
for name in sorting division bytes memory echo patching arithmetic walk calls hashing backtracking matrices pages; do
    for input in empty source long code; do
        case $name-$input in
            patching-code | patching-empty) ;;
            patching-* | *-code) continue ;;
            sorting-long | division-source | division-long | memory-source | memory-long) continue ;;
            arithmetic-source | arithmetic-long | walk-source | walk-long | calls-source | calls-long) continue ;;
            hashing-source | hashing-long | backtracking-source | backtracking-long) continue ;;
            matrices-source | matrices-long | pages-source | pages-long) continue ;;
        esac
        status=0
        qemu-riscv32 "$out/$name.elf" <"$out/$input.txt" >"$out/want" || status=$?
        "$run" --instructions 20000000000 --pages 65536 "$out/$name.rv32" <"$out/$input.txt" >"$out/got" 2>"$out/ending"
        ending=$(tail -n 1 "$out/ending")
        result=same
        cmp -s "$out/want" "$out/got" || result=DIFFERENT
        case $ending in "ending exit=$status "*) ;; *) result=DIFFERENT ;; esac
        [ $result = same ] || failed=1
        echo "$name < $input.txt: $result, $(wc -c <"$out/got") bytes, status $status, $ending"
    done
done
exit $failed
