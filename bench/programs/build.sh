#!/bin/sh
# Builds each program of this folder, or those that are named: bench/out/NAME.elf, which runs under Linux too, and
# bench/out/NAME.rv32, the raw image for the machine. Wants Debian's gcc-riscv64-unknown-elf.
set -eu
here=$(cd "$(dirname "$0")" && pwd)
out=$here/../out
prefix=riscv64-unknown-elf-
command -v ${prefix}gcc >/dev/null || { echo "skipped: ${prefix}gcc is not installed (Debian: apt-get install gcc-riscv64-unknown-elf)"; exit 77; }
mkdir -p "$out"
[ $# -gt 0 ] || set -- $(cd "$here" && for file in *.c; do echo "${file%.c}"; done | grep -v '^library$')
for name in "$@"; do
    ${prefix}gcc -march=rv32im -mabi=ilp32 -O2 -Wall -Wextra -ffreestanding -fno-builtin -fno-tree-loop-distribute-patterns -nostdlib \
        -Wl,--build-id=none,--no-warn-rwx-segments -T "$here/image.ld" -o "$out/$name.elf" \
        "$here/start.S" "$here/$name.c" "$here/library.c" -lgcc
    ${prefix}objcopy -O binary -R .bss "$out/$name.elf" "$out/$name.rv32"
done
