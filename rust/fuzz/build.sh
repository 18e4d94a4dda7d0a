#!/usr/bin/env bash
# Builds the fuzz target with libFuzzer: bash rust/fuzz/build.sh [RUST [OUT]]
# RUST is the workspace to build (rust/), OUT the folder for what is built (target/fuzz). Needs clang with its runtime (Debian:
# clang, libclang-rt-14-dev), cargo and rt. Three programs: `both` has coverage counters in the proved code and in the oracle,
# `proved` and `oracle` in one of them alone, to say how much of each a corpus reaches. PROGRAMS=both builds the first alone.
set -euo pipefail
top=$(cd "$(dirname "${BASH_SOURCE[0]}")/../.." && pwd)
rust=$(realpath "${1:-$top/rust}")
mkdir -p "${2:-$top/target/fuzz}"
out=$(realpath "${2:-$top/target/fuzz}")
module=$top/target/fuzz/module.bc
mkdir -p "$top/target/fuzz"
archive=$top/target/staticlib/libexports.a
home=$(dirname "$(dirname "$(readlink -f "$(command -v rt)")")")
tools=$home/toolchain/bin

# The proved library's LLVM module, and how it is compiled: rt builds the archive with a clang that keeps a copy of what it is given. rt goes by
# where it lies, so it is copied; the rest of the kit is links, which rt would refuse in the project.
keep_module() {
  local place
  "$top/tools/library" | tail -n 1
  place=$(mktemp -d)
  mkdir -p "$place/kit/bin" "$place/kit/toolchain/bin"
  cp "$home/bin/rt" "$home/bin/rtlib.py" "$place/kit/bin"
  rm -f "$module" "$module.words"
  printf '#!/bin/sh\nfor word; do case $word in *.bc) cp "$word" %q && printf "%%s\\n" "$@" > %q ;; esac; done\nexec %q "$@"\n' \
    "$module" "$module.words" "$tools/clang" >"$place/kit/toolchain/bin/clang"
  chmod +x "$place/kit/toolchain/bin/clang"
  for folder in . bin toolchain toolchain/bin; do
    for entry in "$home/$folder"/*; do
      [ -e "$place/kit/$folder/${entry##*/}" ] || ln -s "$entry" "$place/kit/$folder/"
    done
  done
  (cd "$top/crates/exports_c" && "$place/kit/bin/rt" lib | tail -n 1)
  rm -rf "$place"
  touch "$module"
}

# The same module, compiled as the archive is, with coverage counters.
instrument() {
  local words=() word
  while IFS= read -r word; do
    case $word in
    *.bc) words+=("$module") ;;
    *.o) words+=("$out/proved.o") ;;
    --sysroot=*) ;;
    *) words+=("$word") ;;
    esac
  done <"$module.words"
  "$tools/clang" "${words[@]}" -fsanitize=fuzzer-no-link
}

# The Rust side as an archive; `counted` has counters in the oracle and nowhere else. The wrapper is called with rustc and its words.
rust_archive() { # NAME
  (cd "$rust" && RUSTC_WRAPPER=$out/$1-rustc cargo rustc --offline --quiet --release -j "${JOBS:-1}" --target-dir "$out/$1-rust" \
    -p fuzz --features libfuzzer --lib --crate-type staticlib)
  cp "$out/$1-rust/release/libfuzz.a" "$out/$1.a"
}
cat >"$out/counted-rustc" <<'END'
#!/bin/sh
case " $* " in *" --crate-name oracle "*)
  set -- "$@" -Ccodegen-units=1 -Cpasses=sancov-module -Cllvm-args=-sanitizer-coverage-level=3 \
    -Cllvm-args=-sanitizer-coverage-inline-8bit-counters -Cllvm-args=-sanitizer-coverage-pc-table \
    -Cllvm-args=-sanitizer-coverage-trace-compares ;;
esac
exec "$@"
END
printf '#!/bin/sh\nexec "$@"\n' >"$out/plain-rustc"
chmod +x "$out/counted-rustc" "$out/plain-rustc"

if [ ! -f "$module.words" ] || [ ! -f "$archive" ] || [ "$archive" -nt "$module" ] ||
  [ -n "$(cd "$top" && find crates -type d -path 'crates/*/out' -prune -o -newer "$module" ! \( -type d -path 'crates/*' ! -path 'crates/*/*' \) -print -quit)" ]; then
  keep_module
fi
instrument
# libFuzzer asks for the mutator weakly, which takes nothing out of an archive.
link() { # NAME FILE...
  "${CC:-clang}" -fsanitize=fuzzer "${@:2}" -Wl,--require-defined=LLVMFuzzerCustomMutator -lpthread -ldl -lm -o "$out/$1"
}
# proved.o stands before the archive, which then adds nothing for the calls it already has.
rust_archive counted
link both "$out/proved.o" "$out/counted.a"
if [ "${PROGRAMS:-all}" = all ]; then
  rust_archive plain
  link proved "$out/proved.o" "$out/plain.a"
  link oracle "$out/counted.a"
fi
