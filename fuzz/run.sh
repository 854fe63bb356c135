#!/usr/bin/env bash
# Builds the fuzz target and runs libFuzzer:
#
#     fuzz/run.sh SECONDS FOLDER [FLAGS FOR LIBFUZZER...]
#
# FOLDER has the libleafgraph.a to be fuzzed. New inputs go to
# build/fuzz/corpus, failing ones to build/fuzz/failures. Exit status 0: the
# time is over and there was no difference.
set -euo pipefail

die() {
    echo "fuzz: $*" >&2
    exit 1
}

[ $# -ge 2 ] || die "usage: fuzz/run.sh SECONDS FOLDER [FLAGS FOR LIBFUZZER...]"
seconds=$1
cd "$(dirname "$0")/.."
library=$(cd "$2" && pwd)
shift 2
cargo=${CARGO:-cargo}
clang=${CLANG:-clang}
out=$PWD/build/fuzz
mkdir -p "$out/corpus" "$out/failures"

# What fuzzing needs beside cargo. It was asked for, so its absence is a failure.
command -v "$clang" >"$out/which" || die "there is no $clang, which links libFuzzer. Debian: the packages clang-14 and libclang-rt-14-dev"
echo 'int LLVMFuzzerTestOneInput(const char *data, unsigned long size) { return data && size > 1 ? 0 : 0; }' >"$out/probe.c"
"$clang" -fsanitize=fuzzer -o "$out/probe" "$out/probe.c" 2>"$out/probe.log" || {
    cat "$out/probe.log" >&2
    die "$clang cannot link libFuzzer's runtime. Debian: the package libclang-rt-14-dev"
}

# Both Rust crates get counters. The target is named so that cargo leaves build
# scripts without them: those link no libFuzzer.
host=$(cd reference && "${RUSTC:-rustc}" -vV | sed -n 's/^host: //p')
counters="-C passes=sancov-module -C codegen-units=1"
for option in level=4 inline-8bit-counters pc-table trace-compares; do
    counters+=" -C llvm-args=-sanitizer-coverage-$option"
done
(
    cd reference
    export CARGO_TARGET_DIR=$out/target LEAFGRAPH_LIB_DIR=$library RUSTFLAGS=$counters
    "$cargo" rustc --offline --locked --release --target "$host" -p fuzz --lib --crate-type staticlib
)
"$clang" -fsanitize=fuzzer -o "$out/target/fuzz" "$out/target/$host/release/libleafgraph_fuzz.a" -lpthread -ldl -lm

# The log has every new input; the screen gets the pulse and the end.
status=0
"$out/target/fuzz" -max_total_time="$seconds" -max_len=26000 -timeout=30 -print_final_stats=1 \
    -artifact_prefix=build/fuzz/failures/ "$@" build/fuzz/corpus fuzz/corpus >"$out/log" 2>&1 &
fuzzer=$!
trap 'kill "$fuzzer" 2>/dev/null || true' INT TERM
echo "fuzz: $seconds seconds, log in build/fuzz/log"
wait "$fuzzer" || status=$?

grep -E '^#[0-9]+[[:space:]]+(INITED|pulse|DONE)' "$out/log" | tail -n 12 || true
if [ "$status" -ne 0 ]; then
    if grep -q '^DIFFERENCE' "$out/log"; then
        sed -n '/^DIFFERENCE/,/^compared/p' "$out/log" | cut -c 1-300
    else
        grep -E 'panicked|ERROR: libFuzzer' -A 1 "$out/log" | cut -c 1-300 || true
    fi
    grep '^stat::number_of_executed_units' "$out/log" || true
    input=$(sed -n 's/.*Test unit written to //p' "$out/log" | tail -n 1)
    die "FAILED with status $status; the failing input: ${input:-none, see build/fuzz/log}"
fi
grep -E '^stat::(number_of_executed_units|average_exec_per_sec|new_units_added)' "$out/log"
sed -n '/^compared/,/lg_read_listing/p' "$out/log"
grep -qE '^compared [1-9]' "$out/log" || die "no call was compared"
echo "fuzz: no difference"
