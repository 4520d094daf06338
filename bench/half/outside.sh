#!/bin/sh
# Compares every pair of half codes with the machine's half conversions. Needs gcc and a machine with F16C.
set -e
cd "$(dirname "$0")/../.."
mkdir -p target/staticlib
(cd crates/half_export_c && rt lib) > target/bench-half.log 2>&1 || { tail -5 target/bench-half.log; exit 1; }
cp crates/half_export_c/out/libhalf_export_c.a target/staticlib/libhalf_export.a
gcc -O2 -mf16c -frounding-math -o target/outside-half bench/half/outside.c target/staticlib/libhalf_export.a
target/outside-half
