#!/bin/sh
# Builds the submissions and the validator of `sources/`; the built files are in the repository, so this is only needed
# where a source is changed. Each program is built as an executable and as a raw image, and `submissions.txt` names one
# of them or both. Wants Debian's gcc-riscv64-unknown-elf.
set -eu
here=$(cd "$(dirname "$0")" && pwd)
built=$(mktemp -d)
trap 'rm -rf "$built"' EXIT
build() {
    "$here/../starter/build.sh" "$built" "$here/sources/$1.c" "$2" || { [ $? = 77 ] && exit 0; exit 1; }
}

for source in "$here"/sources/*.c; do
    name=$(basename "$source" .c)
    build "$name" -O2
    case $name in check_*) continue ;; esac
    cp "$built/$name.elf" "$built/$name.rv32" "$here/submissions/"
done
for name in mean_right pair_right common_right; do
    build "$name" -O0
    cp "$built/$name.elf" "$here/submissions/${name}_O0.elf"
    cp "$built/$name.rv32" "$here/submissions/${name}_O0.rv32"
done
mkdir -p "$here/problems/pair/output_validators"
build check_pair -O2
cp "$built/check_pair.rv32" "$here/problems/pair/output_validators/check.rv32"
cp "$here/sources/notes.txt" "$here/submissions/"
# Only what submissions.txt names stays.
for file in "$here"/submissions/*; do
    grep -q " $(basename "$file")\$" "$here/submissions.txt" || rm "$file"
done
chmod 644 "$here"/submissions/* "$here"/problems/pair/output_validators/*
