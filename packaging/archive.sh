#!/usr/bin/env bash
# Proves a static library and builds its archive for a processor: archive.sh CRATE ARCH OUT.
# The toolchain compiles for x86-64 and for aarch64 on whatever machine it runs. Of each it is asked for code that every processor of
# that kind runs, which is not what it would take by itself.
set -euo pipefail
cd "$(dirname "${BASH_SOURCE[0]}")/.."
crate=$1 arch=$2 out=$3
case $arch in
x86_64) cpu=x86-64 ;;
aarch64) cpu=generic ;;
*) echo "archive.sh: the toolchain is not known to compile for $arch" >&2; exit 2 ;;
esac

# What is edited while it is being proved must be newer than the archive.
began=$(date +%s.%N)
(cd "crates/$crate" && rt lib --target "$arch-unknown-linux-gnu" --cpu "$cpu")
built=crates/$crate/out/lib$crate.a
touch -d "@$began" "$built"
mkdir -p "$(dirname "$out")"
mv "$built" "$out"
echo "$out is for $arch"
