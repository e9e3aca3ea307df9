#!/bin/sh
# Builds a program of a contest: NAME.elf, an executable as the linker leaves it, and NAME.rv32, a raw image.
#
#     examples/starter/build.sh FOLDER SOURCE.c [OPTION ..]
#
# They are put into FOLDER. Options of the compiler stand behind its -O2, so that -O0 counts where it is said. Wants
# Debian's gcc-riscv64-unknown-elf, or clang with lld and llvm; STARTER_COMPILER=gcc or clang says which.
set -eu
if [ $# -lt 2 ]; then
    echo "usage: $0 FOLDER SOURCE.c [OPTION ..]" >&2
    exit 2
fi
here=$(cd "$(dirname "$0")" && pwd)
prefix=riscv64-unknown-elf-
if [ -z "${STARTER_COMPILER:-}" ]; then
    if command -v ${prefix}gcc >/dev/null; then STARTER_COMPILER=gcc; else STARTER_COMPILER=clang; fi
fi
case $STARTER_COMPILER in
gcc)
    command -v ${prefix}gcc >/dev/null || { echo "skipped: ${prefix}gcc is not installed (Debian: apt-get install gcc-riscv64-unknown-elf)"; exit 77; }
    compiler="${prefix}gcc -Wl,--no-warn-rwx-segments"
    library=-lgcc
    objcopy=${prefix}objcopy
    ;;
clang)
    for tool in clang ld.lld llvm-objcopy; do
        command -v $tool >/dev/null || { echo "skipped: $tool is not installed (Debian: apt-get install clang lld llvm)"; exit 77; }
    done
    compiler="clang --target=riscv32 -fuse-ld=lld -mno-relax -Wno-unknown-pragmas"
    library=
    objcopy=llvm-objcopy
    ;;
*)
    echo "$0: STARTER_COMPILER is gcc or clang" >&2
    exit 2
    ;;
esac
folder=$1
source=$2
shift 2
name=$(basename "$source" .c)
compile() {
    $compiler -march=rv32im -mabi=ilp32 -O2 -Wall -Wextra -ffreestanding -fno-builtin \
        -nostdlib -static -Wl,--build-id=none,--strip-debug -I "$here" "$@" "$here/start.S" "$source" "$here/contest.c" $library
}
image=$(mktemp)
trap 'rm -f "$image"' EXIT
compile "$@" -o "$folder/$name.elf"
compile "$@" -T "$here/image.ld" -o "$image"
$objcopy -O binary -R .bss "$image" "$folder/$name.rv32"
