#!/bin/sh
# Measures the stack of the reader's call at depth 64, and of the comparison. The exit status is 1 where one reaches 8 KiB.
set -e
cd "$(dirname "$0")/.."
archive=$(tools/archive)
cc -O2 -Wl,-z,now -Iinclude -o target/stack-bench bench/stack.c "$archive"
exec target/stack-bench
