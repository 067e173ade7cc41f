#!/usr/bin/env bash
# Fuzzes the archive with the reference as its oracle: fuzz.sh SECONDS. What was learned stays in target/fuzz/corpus, an
# input that found a difference in target/fuzz.
set -euo pipefail
cd "$(dirname "${BASH_SOURCE[0]}")/.."
. tests/tools.sh

seconds=${1:-60}
need_toolchain
need clang clang
work=$PWD/target/fuzz
mkdir -p "$work/corpus"

# The fuzzer's runtime is a package of its own.
runtime() {
    local target='int LLVMFuzzerTestOneInput(void) { return 0; }'
    clang -fsanitize=fuzzer -x c -o "$work/probe" - <<<"$target" 2>/dev/null
}
runtime || install_package libclang-rt-dev
runtime || { echo "clang's libFuzzer is missing: please install the Debian package libclang-rt-dev"; exit 1; }

# Only the target is instrumented: build scripts are not when a target is named.
triple=$(rustc -vV | sed -n 's/^host: //p')
coverage="-Cpasses=sancov-module -Ccodegen-units=1"
for option in level=4 inline-8bit-counters pc-table trace-compares; do
    coverage+=" -Cllvm-args=-sanitizer-coverage-$option"
done
cd tests/fuzz
cargo run --release --offline --quiet --bin seeds -- "$work/corpus"
RUSTFLAGS=$coverage cargo build --lib --release --offline --quiet --target "$triple" --target-dir "$work/cargo"
clang -fsanitize=fuzzer -o "$work/fuzz" "$work/cargo/$triple/release/libballastwren_fuzz.a" -lpthread -ldl -lm
cd "$work"
nice ./fuzz -max_total_time="$seconds" -max_len=4096 -timeout=10 -print_final_stats=1 corpus
