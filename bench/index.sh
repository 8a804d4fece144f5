#!/bin/sh
# Times building and checking the index of subjects for several numbers of subjects and rows, and the stack that both take. The exit
# status is 1 where a pallet file's index, a hundred motors with thirty rows each, takes a second or more.
set -e
cd "$(dirname "$0")/.."
archive=$(tools/archive)
cc -std=gnu11 -Wall -Wextra -O2 -Iinclude -o target/index-bench bench/index.c "$archive"
exec target/index-bench
