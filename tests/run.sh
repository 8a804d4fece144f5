#!/bin/sh
# All evidence from outside, one table: suites, cases, limits, 250,000 random documents, all small ones, the C and Rust interfaces,
# stack, growth and speed. The exit status is 1 where something differs or grows too fast; of speed there is no verdict.
#     tests/run.sh [DIRECTORY]    # where cases/ and w3c/ are; by default ../shared
cd "$(dirname "$0")/.." || exit 2
shared=$(cd "${1:-../shared}" 2> /dev/null && pwd)
log=target/evidence
mkdir -p "$log"
tools/archive --anew > "$log/library.log" 2>&1 || { cat "$log/library.log"; exit 2; }
(cd tests && cargo build --release --offline) > "$log/build.log" 2>&1 || { cat "$log/build.log"; exit 2; }
status=0

# A name, how many lines of what it prints are shown, and a command that fails where something differs.
row() {
    name=$1 lines=$2
    shift 2
    began=$(date +%s)
    if "$@" > "$log/$name.log" 2>&1; then verdict='as it should be'; else verdict='NOT AS IT SHOULD BE' status=1; fi
    printf '%s: %s, %d s\n' "$name" "$verdict" "$(($(date +%s) - began))"
    tail -n "$lines" "$log/$name.log" | sed 's/^/    /'
}

# The same without a verdict: figures beside goals, not all of which are reached.
figures() {
    name=$1
    shift
    began=$(date +%s)
    "$@" > "$log/$name.log" 2>&1
    printf '%s: no verdict, %d s\n' "$name" "$(($(date +%s) - began))"
    sed 's/^/    /' "$log/$name.log"
}

evidence=tests/target/release/evidence
if [ -n "$shared" ] && [ -d "$shared/cases" ]; then row cases 3 $evidence cases "$shared/cases/base.jsonl"; else echo "cases: skipped, there is no directory of cases"; fi
if [ -n "$shared" ] && [ -d "$shared/w3c" ]; then row w3c 9 $evidence w3c "$shared/w3c"; else echo "w3c: skipped, the suites are not there"; fi
row boundaries 30 $evidence boundaries
row compare 12 $evidence compare --seed 42 --count 250000 --seconds 900
row exhaustive 14 $evidence exhaustive
row appended 4 $evidence appended --seed 42 --count 100000
if [ -n "$shared" ] && [ -f "$shared/cases/requests/C-22.jsonl" ]; then row pairs 4 $evidence appended "$shared/cases/requests/C-22.jsonl"; else echo "pairs: skipped, there are none"; fi
row index 3 $evidence index --seed 42 --count 100000
if [ -n "$shared" ] && [ -f "$shared/cases/requests/C-16.jsonl" ]; then row index-cases 4 $evidence index "$shared/cases/requests/C-16.jsonl"; else echo "index-cases: skipped, there are none"; fi
row look-up 17 $evidence look-up --seed 42 --count 100000
if [ -n "$shared" ] && [ -f "$shared/cases/requests/C-17.jsonl" ]; then row look-up-cases 3 $evidence look-up "$shared/cases/requests/C-17.jsonl"; else echo "look-up-cases: skipped, there are none"; fi
row changes 18 $evidence changes --seed 42 --count 100000
if [ -n "$shared" ] && [ -f "$shared/cases/requests/C-21.jsonl" ]; then row changes-cases 4 $evidence changes "$shared/cases/requests/C-21.jsonl"; else echo "changes-cases: skipped, there are none"; fi
row program 1 sh -c '(cd crates/longform && rt run < stdin > /dev/null) && tests/program.py'
row c 1 c/run.sh
row rust 2 sh -c 'cd rust && cargo test --offline --test reading'
row command 2 sh -c 'cd rust && cargo test --offline --test command'
row stack 6 bench/stack.sh
row index-time 6 bench/index.sh
row look-up-time 13 bench/look_up.sh
row compare-time 16 bench/compare.sh
row growth 60 bench/growth.sh
figures speed bench/read.sh
echo "what each of them printed is in $log"
exit $status
