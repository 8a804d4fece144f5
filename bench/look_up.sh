#!/bin/sh
# Times look-ups in indexes of several numbers of records, in nanoseconds and for each byte before the stopping record, and the stack
# that they take, and that c/look_up.c takes, with C functions linked beforehand; where valgrind is there, their instructions a byte too.
# The exit status is 1 where the largest index takes over twice as long a byte as the second, or a stack is over 512 bytes.
set -e
cd "$(dirname "$0")/.."
archive=$(tools/archive)
cc -std=gnu11 -Wall -Wextra -O2 -Wl,-z,now -Iinclude -o target/look-up-bench bench/look_up.c "$archive"
target/look-up-bench
command -v valgrind > /dev/null || exit 0
# Instructions for a byte before the stopping record: of so many motors, that number.
count() {
    bytes=$(valgrind --tool=callgrind --toggle-collect=sycamoot_look_up --callgrind-out-file=/dev/null --log-file=target/look-up.count target/look-up-bench "$1" "$2")
    awk -v bytes="$bytes" '/Collected/ { printf "%.1f", $4 / bytes }' target/look-up.count
}
for records in 1000 10000 50000; do
    echo "$records records: $(count $records $((records - 1))) instructions a byte for the last, $(count $records $records) for one behind all"
done
