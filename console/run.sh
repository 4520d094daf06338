#!/bin/sh
# Proves and builds trace as a static library, links the console and the test of its buffers with it, runs the console on
# every stored sheet of sheets/ and compares what it prints with the report beside the sheet; the program cuetrace too, which
# is proved and built here. Needs gcc and Rattle's kit.
# The last line is 'N passed, M failed'; the exit status is 0 where none failed.
cd "$(dirname "$0")/.." || exit 1
mkdir -p target/console target/staticlib
(cd crates/report_c && rt lib) > target/console/build.log 2>&1 || { tail -n 20 target/console/build.log; echo '0 passed, 1 failed'; exit 1; }
cp crates/report_c/out/libreport_c.a target/staticlib/libreport.a
(cd crates/cuetrace && rt run < /dev/null) > target/console/cuetrace.log 2>&1 || { tail -n 20 target/console/cuetrace.log; echo '0 passed, 1 failed'; exit 1; }
kit=$(dirname "$(rt doc)")
for program in console buffers; do
    gcc -std=c11 -O2 -Wall -Wextra -Werror -o "target/console/$program" "console/$program.c" target/staticlib/libreport.a "$kit/c/liblibc_c.a" \
        || { echo '0 passed, 1 failed'; exit 1; }
done
passed=0
failed=0
for program in target/console/console crates/cuetrace/out/cuetrace; do
    for sheet in sheets/*.sheet sheets/*/*.sheet; do
        if "$program" < "$sheet" > target/console/out && cmp -s target/console/out "${sheet%.sheet}.report"; then
            passed=$((passed + 1))
        else
            failed=$((failed + 1))
            echo "FAILED: $program on $sheet"
        fi
    done
done
if target/console/buffers; then
    passed=$((passed + 1))
else
    failed=$((failed + 1))
    echo 'FAILED: buffers'
fi
echo "$passed passed, $failed failed"
[ "$failed" -eq 0 ]
