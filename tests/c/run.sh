#!/usr/bin/env bash
# Builds the C tests against the proved library and runs them. The library is built first where it is missing. `edges.sh` runs the same
# with sanitizers and under valgrind.
set -euo pipefail
cd "$(dirname "${BASH_SOURCE[0]}")/../.."
if [ ! -f target/staticlib/libexports.a ]; then
  tools/library
fi
mkdir -p target/c
for test in test edges beside pieces; do
  "${CC:-cc}" -std=c11 -Wall -Wextra -Werror -pedantic -O1 -g -Iinclude tests/c/$test.c c/*.c target/staticlib/libexports.a -o target/c/$test
  target/c/$test
done
# The words that C has are those of the list; Rust's are held against the same list by rust/cesr/tests/words.rs.
diff <(sed -n 's/^\([0-9]*\) [A-Z0-9_]* /\1 /p' include/numbers.txt) <(target/c/beside words)
