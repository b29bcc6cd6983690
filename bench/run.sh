#!/usr/bin/env bash
# bench/run.sh [ENTRIES..]: map fields, trees, unknown fields, extensions and Items beside the peers, at 1,000, 10,000,
# 100,000 and 1,000,000 entries if none are given, and then real messages, by real.sh. Prints tables of what is timed, and of
# requests for memory.
#
# Ours is a static library over the crates of this repository; the peers are C++ protobuf and prost, by Debian's
# packages (libprotobuf-dev, protobuf-compiler, librust-prost-dev, librust-indexmap-dev), and plain Rust. At each
# field all run in turn on one core, timed by the processor time of their one thread. Not part of the gate.
#
#   BENCH_BUILD   where it builds, outside the repository (buffa-bench in the user's cache); what it proves there, it keeps
#   BENCH_CORE    the core (the last one)
#   BENCH_PASSES  how often all of them run (3)
#   BENCH_FIELDS  which tables (all of them, by the names in table.py, and `real` for those of real.sh)
#   BENCH_COUNT   1: instructions an entry under callgrind (Debian's valgrind), at the first number, in the place of times
set -euo pipefail
bench=$(cd "$(dirname "$0")" && pwd)
top=$(dirname "$bench")
build=${BENCH_BUILD:-${XDG_CACHE_HOME:-$HOME/.cache}/buffa-bench}
core=${BENCH_CORE:-$(($(nproc) - 1))}
passes=${BENCH_PASSES:-3}
sizes=("$@")
[ $# -gt 0 ] || sizes=(1000 10000 100000 1000000)
read -r -a fields <<< "${BENCH_FIELDS:-strings messages tree1 tree5 tree20 two records packed repeated message_list one items real}"
is_real=
for at in "${!fields[@]}"; do
    [ "${fields[at]}" != real ] || { is_real=1; unset "fields[at]"; }
done
programs=(./ours ./peer_rust ./peer_cpp)
kit=$(dirname "$(dirname "$(readlink -f "$(command -v rattle || echo /opt/rattle/bin/rattle)")")")
# What ours stands on.
crates=(buffa_ext buffa_fields buffa_map buffa_message_set sample_types)

# Ours: the crates copied, with what is built of them, and a static library over them. The gate reads every
# Rattle file of this repository, so the library stands outside it, in a repository of its own.
build_ours() {
    local house=$build/house
    mkdir -p "$house/crates/speed/src" "$house/crates/speed/c"
    [ -d "$house/.git" ] || git init -q "$house"
    "$top/tools/vendor" "$house" "${crates[@]}" --built >&2
    sed -i '/^speed /d' "$house/crates.txt"
    echo "speed staticlib: $(sed -nE 's/^(buffa_[a-z_]*|sample_types):.*/\1/p' "$house/crates.txt" | tr '\n' ' ')indexmap" >> "$house/crates.txt"
    rm -f "$house/crates/speed/src/"*.rt
    for part in "$bench"/ours/*.rt.in; do cp "$part" "$house/crates/speed/src/$(basename "$part" .in)"; done
    (cd "$house/crates/speed" && RT_ALLOW_C=speed rt lib >&2)
    gcc -O2 -Wall -o "$build/ours" "$bench/ours/driver.c" "$house/crates/speed/out/libspeed.a" "$kit/c/liblibc_c.a" -lm
}

build_peers() {
    mkdir -p "$build/cpp" "$build/rust/.cargo"
    protoc --proto_path="$bench/peers" --cpp_out="$build/cpp" bench.proto extended.proto
    g++ -O2 -Wall -std=c++17 -I"$build/cpp" -o "$build/peer_cpp" "$bench/peers/cpp.cc" "$build/cpp/bench.pb.cc" \
        "$build/cpp/extended.pb.cc" -lprotobuf -lpthread
    cp -r "$bench/peers/rust/." "$build/rust/"
    printf '[source.crates-io]\nreplace-with = "debian"\n\n[source.debian]\ndirectory = "/usr/share/cargo/registry"\n' \
        > "$build/rust/.cargo/config.toml"
    (cd "$build/rust" && cargo build --release --offline --quiet)
    cp "$build/rust/target/release/bench_rust" "$build/peer_rust"
    gcc -O2 -shared -fPIC -o "$build/count.so" "$bench/count.c"
}

if [ ${#fields[@]} -eq 0 ]; then exec "$bench/real.sh"; fi
mkdir -p "$build/data"
build_ours
build_peers
cd "$build"
python3 "$bench/data.py" "${sizes[@]}"
if [ "${BENCH_COUNT:-0}" = 1 ]; then
    gcc -O2 -shared -fPIC -o instructions.so "$bench/instructions.c"
    mkdir -p cg
    for field in "${fields[@]}"; do
        for program in "${programs[@]}"; do
            rm -f cg/out*
            LD_PRELOAD=./instructions.so valgrind --tool=callgrind --callgrind-out-file=cg/out "$program" "${sizes[0]}" "$field" 2> /dev/null \
                | sed 's/allocations /instructions at /'
        done
    done
    [ -z "$is_real" ] || "$bench/real.sh"
    exit
fi
: > lines.tsv
for _ in $(seq "$passes"); do
    for n in "${sizes[@]}"; do
        for field in "${fields[@]}"; do
            for program in "${programs[@]}"; do taskset -c "$core" "$program" "$n" "$field" >> lines.tsv; done
        done
    done
done
for n in "${sizes[@]}"; do
    for field in "${fields[@]}"; do
        for program in "${programs[@]}"; do LD_PRELOAD=./count.so "$program" "$n" "$field" >> lines.tsv; done
    done
done
prost=$(awk '/^name = "prost"$/ {getline; gsub(/[^0-9.]/, ""); print}' rust/Cargo.lock)
echo "$(date -u +%F), $(rt version | head -n 1); protobuf $(protoc --version | cut -d ' ' -f 2), prost $prost, $(rustc --version);"
echo "least of $passes passes, nanoseconds; requests for memory at the fewest entries."
python3 "$bench/table.py" lines.tsv
[ -z "$is_real" ] || "$bench/real.sh"
