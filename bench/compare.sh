#!/bin/sh
# Times the comparison of two editions at 64 KB, 256 KB and 1 MB, with an index of four words for a row and a pair, and without one at
# 64 KB; then, at 1 MB and without blank nodes, beside sort and comm over the lines of the long form, and the whole command beside
# serdi, sort and comm (serdi). The exit status is 1 where twice the text takes over 2.6 times as long, or comm finds other statements.
set -e
cd "$(dirname "$0")/.."
archive=$(tools/archive)
texts=target/bench/compare
mkdir -p $texts
cc -std=gnu11 -Wall -Wextra -O2 -Iinclude -o target/compare-bench bench/compare.c bench/lent.c "$archive" -lm
python3 bench/texts.py $texts editions 65536 262144 1048576
export LC_ALL=C

# grow [free] NAME ENDING
grow() {
    free=
    if [ "$1" = free ]; then free=free && shift; fi
    files=
    for size in 65536 262144 1048576; do files="$files $texts/$1-$size.left.$2 $texts/$1-$size.right.$2"; done
    # shellcheck disable=SC2086
    target/compare-bench $free "$1" $files
}

echo "milliseconds without an index and with one; how many times as long twice the text takes; at 1 MB the rows of both, the pairs, and the statements only in one"
printf '%-12s %9s %9s %9s %9s %13s %7s %7s %7s %7s %7s\n' shape '64 KB' '64 KB' '256 KB' '1 MB' 'twice' left right pairs left right
status=0
for name in mixed.trig few_terms.ttl many_terms.ttl motors.trig labels.ttl repeated.ttl ends.ttl; do
    grow "${name%.*}" "${name##*.}" || status=1
done
echo "Texts that no hash of one kind tells apart:"
grow free morse ttl

# Milliseconds since BEGAN.
since() { echo $((($(date +%s%N) - $1) / 1000000)); }

# Lines of a file each once, in order.
lines_of() { if [ "$1" = serdi ]; then serdi -o nquads "$2"; else cat "$2"; fi | sort -u > "$2.$1"; }

# How many lines are only in the left, and only in the right, by serdi or of lines that are there.
differ() {
    lines_of "$1" "$2" && lines_of "$1" "$3"
    echo "$(comm -23 "$2.$1" "$3.$1" | wc -l) and $(comm -13 "$2.$1" "$3.$1" | wc -l)"
}

(cd rust && cargo build --release --offline --quiet)
for name in few_terms many_terms; do
    left=$texts/$name-1048576.left.ttl right=$texts/$name-1048576.right.ttl
    began=$(date +%s%N)
    # the status is 1, since they differ
    rust/target/release/sycamoot changes "$left" "$right" > $texts/changes || [ $? -eq 1 ]
    ours="$(grep -c '^- ' $texts/changes || true) and $(grep -c '^+ ' $texts/changes || true)"
    echo "$name: sycamoot changes, both files read, $(since "$began") ms, only in one $ours"
    for side in left right; do target/compare-bench lines "$texts/$name-1048576.$side.ttl" > "$texts/$name.$side"; done
    began=$(date +%s%N)
    theirs=$(differ lines "$texts/$name.left" "$texts/$name.right")
    echo "    sort and comm over the lines of the long form $(since "$began") ms, only in one $theirs"
    [ "$ours" = "$theirs" ] || status=1
    if command -v serdi > /dev/null; then
        began=$(date +%s%N)
        theirs=$(differ serdi "$left" "$right")
        echo "    serdi, sort and comm $(since "$began") ms, only in one $theirs"
        [ "$ours" = "$theirs" ] || status=1
    fi
done
command -v serdi > /dev/null || echo "serdi is not installed: no comparison with it"
exit $status
