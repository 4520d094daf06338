#!/bin/sh
# Proves and builds the static libraries of the narrowings and of trace, compares them with an independent implementation in
# Rust on random and given jobs, and times both in one run; the last thing printed is the table. Needs rustc and Rattle's kit. A
# word as argument times only the jobs whose names have it.
set -e
cd "$(dirname "$0")/../.."
mkdir -p target/bench-settle target/staticlib
for crate in bench_export report_c; do
    (cd crates/$crate && rt lib) > target/bench-settle/$crate.log 2>&1 || { tail -5 target/bench-settle/$crate.log; exit 1; }
    cp crates/$crate/out/lib$crate.a target/staticlib/
done
kit=$(dirname "$(rt doc)")
rustc --edition 2024 -C opt-level=3 -o target/bench-settle/bench bench/settle/main.rs -C link-arg=target/staticlib/libbench_export.a \
    -C link-arg=target/staticlib/libreport_c.a -C link-arg="$kit/c/liblibc_c.a"
target/bench-settle/bench "$@"
