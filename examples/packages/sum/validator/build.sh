#!/bin/sh
# Builds the image of the validator. Wants Debian's gcc-riscv64-unknown-elf.
set -eu
here=$(cd "$(dirname "$0")" && pwd)
programs=$here/../../../../bench/programs
prefix=riscv64-unknown-elf-
elf=$(mktemp)
trap 'rm -f "$elf"' EXIT
${prefix}gcc -march=rv32im -mabi=ilp32 -O2 -Wall -Wextra -ffreestanding -fno-builtin -fno-tree-loop-distribute-patterns -nostdlib \
    -Wl,--build-id=none,--no-warn-rwx-segments -T "$programs/image.ld" -o "$elf" \
    "$programs/start.S" "$here/check.c" "$programs/library.c" -lgcc
${prefix}objcopy -O binary -R .bss "$elf" "$here/../output_validators/check.rv32"
