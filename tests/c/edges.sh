#!/usr/bin/env bash
# The C interface at the edges of its buffers: plain, with sanitizers on the C side, and under valgrind, which sees into the proved
# code too. Needs valgrind. The library is built first where it is missing.
set -euo pipefail
cd "$(dirname "${BASH_SOURCE[0]}")/../.."
if [ ! -f target/staticlib/libexports.a ]; then
  tools/library
fi
mkdir -p target/c
build() { # NAME FLAGS...
  for test in test edges beside pieces; do
    "${CC:-cc}" -std=c11 -Wall -Wextra -Werror -pedantic -g -Iinclude "${@:2}" tests/c/$test.c c/*.c target/staticlib/libexports.a \
      -o "target/c/$test-$1"
  done
}
build plain -O1
build sanitized -O1 -fsanitize=address,undefined -fno-sanitize-recover=all
said() { # WHAT COMMAND...
  local counts
  counts=$("${@:2}")
  echo "$1: $counts"
}
for test in test edges beside pieces; do
  said "$test" target/c/$test-plain
  said "$test, address and undefined behaviour sanitizers" target/c/$test-sanitized
  said "$test, valgrind" valgrind --quiet --error-exitcode=9 --leak-check=full --errors-for-leak-kinds=all target/c/$test-plain
done
