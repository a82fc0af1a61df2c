#!/bin/sh
# Builds the line check as a C library, links check.c with it, and compares what it says of sample.txt.
set -eu
cd "$(dirname "$0")/.."
(cd crates/lines_c && ${RT:-rt} lib)
mkdir -p target/host
cp crates/lines_c/out/liblines_c.a target/host/liblines.a
gcc -std=c99 -Wall -Wextra -Werror -Ihost host/check.c target/host/liblines.a -o target/host/check
status=0
target/host/check < host/sample.txt > target/host/found.txt || status=$?
diff -u host/expected.txt target/host/found.txt
test "$status" -eq 1
echo "host: as expected"
