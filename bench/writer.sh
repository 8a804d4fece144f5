#!/bin/sh
# Times writing 1 MB of long form, and the stack that it takes.
set -e
cd "$(dirname "$0")/.."
archive=$(tools/archive writer_bench)
cc -O2 -o target/writer-bench bench/writer.c "$archive"
exec target/writer-bench
