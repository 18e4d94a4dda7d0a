#!/usr/bin/env bash
# Can the fuzzer find anything? bash rust/fuzz/faults.sh [SECONDS]
# Each line of faults.txt is a wrong edit of the oracle: a name, a file of rust/oracle/src, and what sed does to it. The edited
# copy is fuzzed from no seeds at all, until it differs from the proved library or the seconds (300) are over.
set -euo pipefail
seconds=${1:-300}
top=$(cd "$(dirname "${BASH_SOURCE[0]}")/../.." && pwd)
cd "$top"
(cd rust && cargo build --offline --quiet --release -j "${JOBS:-1}" -p fuzz)
# Outside of the project, where rt refuses links.
work=$(mktemp -d)
trap 'rm -rf "$work"' EXIT
mkdir -p "$work/target"
ln -sfn "$top/target/staticlib" "$work/target/staticlib"
ln -sfn "$top/crates.txt" "$work/crates.txt"
rust/target/release/fuzz dictionary >"$work/words.dict"
missed=0
while IFS='|' read -r name file edit; do
  rm -rf "$work/rust" "$work/live"
  mkdir -p "$work/live"
  tar --exclude=rust/target -cf - rust | tar -C "$work" -xf -
  # An edit that is taken back must be seen by cargo too.
  find "$work/rust" -name '*.rs' -exec touch {} +
  sed -i -e "$edit" "$work/rust/oracle/src/$file"
  if cmp -s "rust/oracle/src/$file" "$work/rust/oracle/src/$file"; then
    echo "$name: the edit changes nothing" >&2
    exit 1
  fi
  PROGRAMS=both bash rust/fuzz/build.sh "$work/rust" "$work/out"
  began=$(date +%s%N)
  if "$work/out/both" -max_total_time="$seconds" -max_len=512 -entropic=0 -dict="$work/words.dict" \
    -artifact_prefix="$work/" "$work/live" >"$work/log" 2>&1; then
    echo "$name: NOT FOUND in $seconds seconds"
    missed=$((missed + 1))
  else
    runs=$(sed -n 's/^#\([0-9]*\).*/\1/p' "$work/log" | tail -n 1)
    echo "$name: found after $((($(date +%s%N) - began) / 1000000)) ms, some $runs runs"
  fi
done < <(grep -v '^#' rust/fuzz/faults.txt)
exit $missed
