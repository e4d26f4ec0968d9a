#!/bin/sh
# Compiles the programs for RV32I and prints their words, as src/compiled.rt has them. Needs clang, lld and llvm-objcopy.
set -e
cd "$(dirname "$0")"
out=$(mktemp -d)
trap 'rm -r "$out"' EXIT
for name in crc queens sort digits; do
    clang --target=riscv32 -march=rv32i -mabi=ilp32 -Os -ffreestanding -fno-builtin -nostdlib -fuse-ld=lld \
        -Wl,-T,link.ld -Wl,--no-relax start.s $name.c -o "$out/$name"
    llvm-objcopy -O binary "$out/$name" "$out/$name.bin"
    echo "// $name"
    od -An -v -tx4 -w4 "$out/$name.bin" | sed 's/ *\(....\)\(....\)/0x\1_\2,/'
done
