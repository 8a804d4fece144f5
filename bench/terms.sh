#!/bin/sh
# Times finding and adding terms, with and without the index.
set -e
cd "$(dirname "$0")/.."
archive=$(tools/archive terms_bench)
cc -O2 -o target/terms-bench bench/terms.c "$archive"
exec target/terms-bench
