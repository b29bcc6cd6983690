#!/usr/bin/env bash
# bench/c_library.sh: the calls of the library of sample_payment_c beside C++ protobuf (Debian's libprotobuf-dev, protobuf-compiler), as a
# table. It takes the library that `rt lib` made there, and else has it make one. BENCH_CORE is the core (the last one).
set -euo pipefail
top=$(cd "$(dirname "$0")/.." && pwd)
crate=$top/crates/sample_payment_c
build=$(mktemp -d)
trap 'rm -rf "$build"' EXIT
[ -f "$crate/out/libsample_payment_c.a" ] || (cd "$crate" && rt lib >&2)
protoc --proto_path="$top/crates/sample_payment" --cpp_out="$build" payment.proto
gcc -O2 -c -o "$build/heap.o" "$crate/library/heap.c"
g++ -O2 -Wall -std=c++17 -I"$build" -I"$crate/library" -o "$build/run" "$top/bench/c_library.cc" "$build/payment.pb.cc" \
    "$crate/out/libsample_payment_c.a" "$build/heap.o" -lprotobuf -lpthread
taskset -c "${BENCH_CORE:-$(($(nproc) - 1))}" "$build/run"
