#!/bin/sh
# Proves and builds the half library, then times it against the machine's half conversions and a hand-written
# implementation in C, in one run. Needs gcc and a machine with F16C and AVX2.
set -e
cd "$(dirname "$0")/../.."
mkdir -p target/staticlib
(cd crates/half_export_c && rt lib) > target/bench-half.log 2>&1 || { tail -5 target/bench-half.log; exit 1; }
cp crates/half_export_c/out/libhalf_export_c.a target/staticlib/libhalf_export.a
gcc -O3 -frounding-math -o target/bench-half bench/half/bench.c target/staticlib/libhalf_export.a
target/bench-half
