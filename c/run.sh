#!/bin/sh
# Builds the library and the C programs; provokes every answer, prints the statements of a FILE, writes or checks its index, looks
# an ADDRESS up in an INDEX, or prints what changed from the edition LEFT to the edition RIGHT.
#     c/run.sh [FILE]
#     c/run.sh index FILE [INDEX]
#     c/run.sh look-up INDEX ADDRESS
#     c/run.sh changes LEFT RIGHT
set -e
cd "$(dirname "$0")/.."
archive=$(tools/archive)
for program in answers statements index look_up changes; do
    cc -std=c11 -Wall -Wextra -O2 -Iinclude -o target/$program c/$program.c "$archive"
done
if [ $# -eq 0 ]; then exec target/answers; fi
if [ $# -eq 1 ]; then exec target/statements "$1"; fi
form=$1
shift
if [ "$form" = look-up ]; then exec target/look_up "$@"; fi
if [ "$form" = changes ]; then exec target/changes "$@"; fi
exec target/index "$@"
