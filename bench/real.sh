#!/usr/bin/env bash
# bench/real.sh [build|run] [MESSAGE..]: generated messages as people have them, read, sized and written, beside the peers; all messages if
# none are named. With `build` it only makes what it runs, and with `run` it only runs what was made; bench/run.sh calls it for both.
#
# Ours is what the plugin makes of the .proto files of Debian's packages, in crates that are made outside the repository. The peers' code is
# made of the same files: C++ protobuf, prost by prost-build, nanopb with all members as pointers, and upb by reflection.
# The packages: libprotobuf-dev protobuf-compiler python3-protobuf librust-prost-dev librust-prost-types-dev librust-prost-build-dev
# libupb-dev nanopb libnanopb-dev libosmpbf-dev libonnx-dev golang-github-prometheus-client-model-dev golang-etcd-server-dev
#
#   BENCH_BUILD, BENCH_CORE, BENCH_PASSES    as in run.sh
#   BENCH_COUNT   0: no instructions under callgrind, which take a minute and more
#   BENCH_PROVED  1: ours is proved first, which takes an hour or so; else it is built unproved, as real/unproved.sh says
set -euo pipefail
bench=$(cd "$(dirname "$0")" && pwd)
top=$(dirname "$bench")
build=${BENCH_BUILD:-${XDG_CACHE_HOME:-$HOME/.cache}/buffa-bench}/real
core=${BENCH_CORE:-$(($(nproc) - 1))}
passes=${BENCH_PASSES:-3}
go=/usr/share/gocode/src
step=
if [ "${1:-}" = build ] || [ "${1:-}" = run ]; then step=$1; shift; fi
messages=("$@")
[ $# -gt 0 ] || messages=(error_info descriptor metrics range osm descriptors places onnx)
programs=(./ours ./prost ./cpp ./nanopb ./upb)

# The .proto files, as the packages have them. etcd's name a library of options for Go, so its three messages are cut out of them.
take_protos() {
    local etcd=$go/go.etcd.io/etcd
    mkdir -p "$build/protos"
    cd "$build/protos"
    cp "$top/crates/sample_error_info/error_info.proto" /usr/include/onnx/onnx.proto .
    cp "$go/github.com/prometheus/client_model/io/prometheus/client/metrics.proto" .
    zcat /usr/share/doc/libosmpbf-dev/osmformat.proto.gz > osmformat.proto
    {
        printf 'syntax = "proto3";\npackage etcdserverpb;\n\n'
        sed -n '/^message ResponseHeader {/,/^}/p;/^message RangeResponse {/,/^}/p' "$etcd/etcdserver/etcdserverpb/rpc.proto" | sed 's/mvccpb\.//'
        sed -n '/^message KeyValue {/,/^}/p' "$etcd/mvcc/mvccpb/kv.proto"
    } > range.proto
}

# What the messages are made of: Python's modules, and a descriptor of each .proto of some packages that protoc reads.
take_data() {
    local file at=0
    rm -rf "$build/protos/descriptors" && mkdir -p "$build/protos/descriptors" "$build/data"
    protoc --python_out="$build/protos" --proto_path="$build/protos" "$build"/protos/*.proto
    for file in $(dpkg -L libprotobuf-dev libonnx-dev libosmpbf-dev golang-etcd-server-dev golang-github-gogo-protobuf-dev golang-google-grpc-dev \
        golang-google-protobuf-dev golang-github-grpc-ecosystem-grpc-gateway-dev golang-github-prometheus-client-model-dev | grep '\.proto$' | sort -u); do
        at=$((at + 1))
        protoc -I"$(dirname "$file")" -I"$go" -I/usr/include -I"$go/github.com/grpc-ecosystem/grpc-gateway/third_party/googleapis" \
            -I"$go/github.com/gogo/protobuf" --include_source_info -o "$(printf '%s/protos/descriptors/%03d.bin' "$build" $at)" "$file" 2> /dev/null || true
    done
    /usr/bin/python3 "$bench/real/data.py" "$build/protos" "$build/data"
}

# Ours: a crate for each .proto, and a program over them, in a repository of its own, which keeps what was proved.
make_crate() {
    local house=$1 name=$2 file=$3
    shift 3
    mkdir -p "$house/crates/real_$name"
    cp "$build/protos/$file" "$house/crates/real_$name"
    (cd "$house/crates/real_$name" && "$top/tools/protoc-gen-buffa" "$@" "$file" 2> notes) || { cat "$house/crates/real_$name/notes" >&2; exit 1; }
}

build_ours() {
    local house=$build/house real=$build/house/crates/real
    mkdir -p "$real/src" "$real/c"
    [ -d "$house/.git" ] || git init -q "$house"
    "$top/tools/vendor" "$house" buffa_descriptor buffa_types buffa_recursive buffa_fields --built >&2
    sed -i '/^real/d' "$house/crates.txt"
    make_crate "$house" error_info error_info.proto
    make_crate "$house" metrics metrics.proto
    make_crate "$house" range range.proto
    make_crate "$house" osm osmformat.proto leave=OSMPBF.HeaderBlock,leave=OSMPBF.HeaderBBox
    make_crate "$house" onnx onnx.proto
    printf '%s\n' 'real_error_info: buffa_fields' 'real_metrics: buffa_fields buffa_types' 'real_range: buffa_fields' 'real_osm: buffa_fields' \
        'real_onnx: buffa_fields' 'real: real_error_info real_metrics real_range real_osm real_onnx buffa_descriptor buffa_fields anyhow' >> "$house/crates.txt"
    cp "$bench/real/ours/main.rt.in" "$real/src/main.rt"
    cp "$bench/bench.h" "$bench/real/real.h" "$bench/real/ours.c" "$real/c"
    if [ "${BENCH_PROVED:-0}" = 1 ]; then
        (cd "$real" && RT_ALLOW_C=real rt run < /dev/null >&2)
        cp "$real/out/real" "$build/ours"
    else
        "$bench/real/unproved.sh" "$real" "$build/ours" "$real/c/ours.c"
    fi
}

build_peers() {
    local name files=(error_info metrics onnx osmformat range)
    cd "$build"
    mkdir -p cpp_made nanopb_made upb_made rust/.cargo
    protoc --proto_path=protos --cpp_out=cpp_made protos/*.proto
    g++ -O2 -Wall -std=c++17 -Icpp_made -I"$bench" -I"$bench/real" -o cpp "$bench/real/cpp.cc" cpp_made/*.cc -lprotobuf -lpthread
    cp -r "$bench/real/rust/." rust/
    printf '[source.crates-io]\nreplace-with = "debian"\n\n[source.debian]\ndirectory = "/usr/share/cargo/registry"\n' > rust/.cargo/config.toml
    (cd rust && PROTOS="$build/protos" PROTOC=/usr/bin/protoc PROTOC_INCLUDE=/usr/include cargo build --release --offline --quiet)
    cp rust/target/release/bench_real prost
    cp protos/*.proto /usr/include/google/protobuf/{descriptor,timestamp}.proto nanopb_made
    for name in "${files[@]}" descriptor timestamp; do echo '* type:FT_POINTER' > "nanopb_made/$name.options"; done
    (cd nanopb_made && sed -i 's,google/protobuf/timestamp,timestamp,' metrics.proto && /usr/bin/protoc --nanopb_out=. ./*.proto 2> notes) \
        || { cat nanopb_made/notes >&2; exit 1; }
    gcc -O2 -Wall -DPB_ENABLE_MALLOC -Inanopb_made -I"$bench" -I"$bench/real" -o nanopb "$bench/real/nanopb.c" nanopb_made/*.pb.c -lprotobuf-nanopb
    protoc --proto_path=protos --include_imports -o upb_made/all.bin protos/*.proto /usr/include/google/protobuf/descriptor.proto
    gcc -O2 -Wall -I"$bench" -I"$bench/real" -o upb "$bench/real/upb.c" -lupb_reflection -ldescriptor_upb_proto -lupb
    gcc -O2 -shared -fPIC -o count.so "$bench/count.c"
    gcc -O2 -shared -fPIC -o instructions.so "$bench/instructions.c"
}

# Each message by all programs in turn; then the requests for memory and, under callgrind, the instructions.
run_all() {
    local message program
    cd "$build"
    : > lines.tsv
    for _ in $(seq "$passes"); do
        for message in "${messages[@]}"; do
            for program in "${programs[@]}"; do taskset -c "$core" "$program" "$message" >> lines.tsv; done
        done
    done
    for message in "${messages[@]}"; do
        for program in "${programs[@]}"; do LD_PRELOAD=./count.so "$program" "$message" >> lines.tsv; done
    done
    [ "${BENCH_COUNT:-1}" = 1 ] || return 0
    for message in "${messages[@]}"; do
        for program in "${programs[@]}"; do
            rm -rf cg && mkdir cg
            LD_PRELOAD=./instructions.so valgrind --tool=callgrind --callgrind-out-file=cg/out "$program" "$message" 2> /dev/null \
                | sed 's/\trequests /\tinstructions /' >> lines.tsv
        done
    done
}

if [ "$step" != run ]; then
    take_protos
    take_data
    build_ours
    build_peers
fi
if [ "$step" != build ]; then
    run_all
    cd "$build"
    echo "real messages: $(date -u +%F), least of $passes passes; protobuf $(protoc --version | cut -d ' ' -f 2), prost, nanopb and upb by Debian's packages"
    /usr/bin/python3 "$bench/real/table.py" lines.tsv
fi
