#!/bin/sh
# Builds the lexer as a static library and prints its speed on a TriG file of 1 MB and on each family of tokens.
set -e
cd "$(dirname "$0")/.."
archive=$(tools/archive lexer_bench)
mkdir -p target/bench
cc -O2 -o target/bench/measure bench/measure.c "$archive"
python3 bench/texts.py target/bench
target/bench/measure target/bench/document.trig target/bench/*.txt
