#!/usr/bin/env bash
# The release: packed twice it is the same bytes; unpacked elsewhere it builds, installs and judges with no prover to be found; and the
# crate cesr builds outside of any tree, over the library that was installed from it. Asks for make, a C compiler, cargo and python3; the
# library is proved already.
set -euo pipefail
cd "$(dirname "${BASH_SOURCE[0]}")/../.."
place=$(mktemp -d)
trap 'rm -rf "$place"' EXIT
version=$(sed -n 's/^#define CESR_VERSION "\(.*\)"$/\1/p' include/cesr.h)
archive=target/dist/cesr-$version.tar.gz

fail() {
  echo "tests/install: $1" >&2
  exit 1
}

make --silent dist > /dev/null
cp "$archive" "$place/first.tar.gz"
# Other times of the files are no other release.
touch include/cesr.h docs/GUIDE.md
make --silent dist > /dev/null
cmp "$place/first.tar.gz" "$archive" || fail "two releases of the same files differ"

# A path with the tools that a user has, and no prover.
mkdir "$place/bin"
for tool in cargo rustc; do
  ln -s "$(rustup which "$tool" 2> /dev/null || command -v "$tool")" "$place/bin/$tool"
done
ln -s "$(python3 -c 'import sys; print(sys.executable)')" "$place/bin/python3"
PATH=$place/bin:/usr/bin:/bin
if command -v rt; then
  fail "a prover is found"
fi
tar -xzf "$place/first.tar.gz" -C "$place"
prefix=$place/prefix
make --silent -C "$place/cesr-$version" install PREFIX="$prefix"
[ "$("$prefix/bin/cesr" --version)" = "cesr $version" ] || fail "the command of the release has another version"
"$prefix/bin/cesr" judge samples/clean.cesr > /dev/null || fail "the command of the release does not pass a clean stream"
if "$prefix/bin/cesr" judge samples/first.cesr > /dev/null; then
  fail "the command of the release passes a refusal"
fi
(cd "$place/cesr-$version" && ./cesr judge samples/clean.cesr > /dev/null) || fail "./cesr of the release does not pass a clean stream"

# The record is of this library and of these sources.
cd "$place/cesr-$version"
digest=$(sha256sum proof/libexports.a | cut -d' ' -f1)
grep -q "^library  $digest  libexports.a$" proof/RECORD || fail "the record is of another library"
sed '1,/^SHA-256 of what was proved:$/d' proof/RECORD > "$place/sums"
sha256sum --quiet --check "$place/sums" || fail "the record is of other sources"
grep -q "^  fn exports::cesr_report_text: proved$" proof/RECORD || fail "the record has no verdict on the report"

# It packs itself again, with what was built beside it.
make --silent dist > /dev/null
cmp "$place/first.tar.gz" "target/dist/cesr-$version.tar.gz" || fail "the release packs another one"

# A project of somebody else, with the crates copied beside it: no workspace, no std, and the installed library.
mkdir -p "$place/user/src"
cp -r rust/cesr rust/proved "$place/user"
cat > "$place/user/Cargo.toml" << 'END'
[package]
name = "user"
version = "0.0.0"
edition = "2021"

[dependencies]
cesr = { path = "cesr" }

[profile.release]
panic = "abort"
END
cp "$OLDPWD/tests/install/user.rs" "$place/user/src/main.rs"
cd "$place/user"
CESR_LIB_DIR=$prefix/lib cargo build --quiet --offline --release
./target/release/user || fail "a program without std over the crate answers otherwise"
if env -u CESR_LIB_DIR PKG_CONFIG_PATH= cargo build --quiet --offline --release --target-dir "$place/other" 2> "$place/said"; then
  fail "the crate builds without a library"
fi
grep -q "cesr" "$place/said" || fail "the crate does not say what is missing"
echo "released: the same bytes twice, built and installed without the prover, and the crate outside the tree"
