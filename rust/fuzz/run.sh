#!/usr/bin/env bash
# Builds the fuzz target and runs it: bash rust/fuzz/run.sh SECONDS
# LONGEST=16384 tries inputs of up to so many bytes (512), which conversion's tables ask for, and is slower.
# What is found (an input on which the proved library and the oracle differ, or that touches memory beside a buffer) lies in
# target/fuzz/found, and the script then fails. Last it prints the executions, the time used, and what the corpus reaches.
set -euo pipefail
seconds=${1:?usage: run.sh SECONDS}
cd "$(dirname "${BASH_SOURCE[0]}")/../.."
bash rust/fuzz/build.sh
(cd rust && cargo build --offline --quiet --release -j "${JOBS:-1}" -p fuzz)
tool=rust/target/release/fuzz
work=target/fuzz
mkdir -p $work/live $work/found
$tool seeds >$work/seeds.txt
rm -rf $work/seeds $work/kept
$tool unpack $work/seeds.txt $work/seeds
$tool unpack rust/fuzz/corpus.txt $work/kept
$tool dictionary >$work/words.dict

echo "== fuzzing for $seconds seconds"
status=0
TIMEFORMAT='CPU seconds: %U'
time $work/both -max_total_time="$seconds" -max_len="${LONGEST:-512}" -entropic=0 -dict=$work/words.dict -print_final_stats=1 \
  -artifact_prefix=$work/found/ $work/live $work/seeds $work/kept >$work/log 2>&1 || status=$?
grep -E '^Done|^stat::|panicked|ERROR' $work/log || true

for part in proved oracle; do
  $work/$part -runs=0 $work/live $work/seeds $work/kept >$work/reached 2>&1
  all=$(sed -n 's/.*Loaded 1 modules *(\([0-9]*\) inline.*/\1/p' $work/reached)
  reached=$(sed -n 's/.*INITED cov: \([0-9]*\) .*/\1/p' $work/reached)
  echo "$part: $reached of $all counters reached"
done
exit $status
