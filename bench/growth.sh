#!/bin/sh
# Times the read at 1/4, 1/2 and 1 MB of every shape and of the worst texts; fails where twice the text takes over 2.2 times as long.
set -e
cd "$(dirname "$0")/.."
archive=$(tools/archive)
texts=target/bench/growth
mkdir -p $texts
cc -std=gnu11 -Wall -Wextra -O2 -Iinclude -o target/growth-bench bench/growth.c bench/lent.c "$archive"
for set in shapes worst; do python3 bench/texts.py $texts $set 262144 524288 1048576; done

# grow long|short FILE: FILE is the smallest of the three.
grow() {
    name=$(basename "${2%-*}")
    target/growth-bench "$1" "$name" "$2" "$texts/$name-524288.${2##*.}" "$texts/$name-1048576.${2##*.}"
}

echo "                     ms: 1/4       1/2      1 MB   twice the text  answer"
over=0
for file in "$texts"/*-262144.*; do grow long "$file" || over=$((over + 1)); done
echo "With the shortest work slice there is no index, and finding a term is linear in their number:"
for name in few_terms many_terms ends; do grow short "$texts/$name-262144.ttl"; done
echo "$over over 2.2"
[ $over -eq 0 ]
