#!/bin/sh
# Speed of the read, tables filled, on several shapes of documents, beside serd with IRIs expanded and terms numbered (libserd-dev),
# and instructions a byte (valgrind), each beside its goal; then what takes the instructions in the shape that is worst beside serd.
# The exit status is 1 where a figure falls short of its goal.
set -e
cd "$(dirname "$0")/.."
archive=$(tools/archive)
texts=target/bench/read
mkdir -p $texts
engines=sycamoot
if pkg-config --exists serd-0 2> /dev/null; then
    engines="sycamoot serd"
    serd="-DWITH_SERD bench/serd.c $(pkg-config --cflags --libs serd-0)"
else
    echo "libserd is not installed: no comparison"
fi
command -v valgrind > /dev/null || echo "valgrind is not installed: no instructions"
# shellcheck disable=SC2086
cc -std=gnu11 -Wall -Wextra -O2 -Iinclude -o target/read-bench bench/read.c bench/lent.c "$archive" $serd
python3 bench/texts.py $texts shapes 2048 65536 262144 1048576

# instructions ENGINE FILE: of one read, a byte.
instructions() {
    command -v valgrind > /dev/null || return 0
    call=read_lent
    [ "$1" = serd ] && call=serd_read
    valgrind --tool=callgrind --collect-atstart=no --toggle-collect=$call --callgrind-out-file="$texts/$1.callgrind" target/read-bench "$1" "$2" 2>&1 |
        awk -v bytes="$(wc -c < "$2")" '/Collected/ {printf " %.1f", $4 / bytes}'
}

# The goal: twice serd, with half of its instructions. With an escape every seven bytes a reader in C without any checks does not
# reach that; there it is to be ahead.
# The times of serd by file, from which the worst is chosen, and where a figure falls short.
: > $texts/times
: > $texts/short
row="%-13s %8s %6s %6s %6s %6s %6s %5s %8s %6s %6s %5s\n"
# shellcheck disable=SC2059
printf "$row" shape bytes rows terms MB/s serd times goal instr/B serd part goal
for shape in mixed few_terms many_terms long_strings deep motors full_iris relative flat_lists commented escapes_30 escapes_7; do
    sizes="65536 262144 1048576" times=2.0 part=0.50
    [ $shape = mixed ] && sizes="2048 $sizes"
    [ $shape = escapes_7 ] && times=1.0 part=1.00
    for size in $sizes; do
        file=$(echo $texts/$shape-"$size".*)
        speeds=$(target/read-bench "$file")
        counts=$(for engine in $engines; do instructions "$engine" "$file"; done)
        # shellcheck disable=SC2046,SC2059,SC2086
        printf "$row" $shape $(echo "$speeds - -" | awk -v goal=$times '{print $1, $2, $3, $4, $5, $5 + 0 ? sprintf("%.2f", $4 / $5) : "-", goal}') \
            $(echo "$counts - -" | awk -v goal=$part '{print $1, $2, $2 + 0 ? sprintf("%.2f", $1 / $2) : "-", goal}')
        echo "$speeds $file" | awk 'NF == 6 {print $4 / $5, $6}' >> $texts/times
        echo "$speeds - - / $counts - -" | awk -v times=$times '$5 + 0 && $4 / $5 < times {print "short"}' >> $texts/short
        echo "$counts - -" | awk -v part=$part '$2 + 0 && $1 / $2 > part {print "short"}' >> $texts/short
    done
done

[ "$engines" = sycamoot ] && exit 0
echo
echo "$(wc -l < $texts/short) figures fall short of their goals"
if command -v valgrind > /dev/null; then
    worst=$(sort -n $texts/times | head -1 | cut -d' ' -f2)
    echo
    echo "What takes the instructions in $(basename "$worst"), inclusive and by itself:"
    instructions sycamoot "$worst" > /dev/null
    for inclusive in yes no; do
        callgrind_annotate --inclusive=$inclusive --auto=no $texts/sycamoot.callgrind | grep -E '\([ 0-9.]+%\) .*(::|sycamoot_read|mem)' | grep -v "'2" | sed 's/ \[.*//; s/???://' | head -16
        echo
    done
fi
[ ! -s $texts/short ]
