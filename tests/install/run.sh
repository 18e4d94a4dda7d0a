#!/usr/bin/env bash
# What `make install` installs, used as people use it: the command, the library from C (static and shared) and from Python, the completion
# for bash. Asks for make, a C compiler and python3, and takes pkg-config where it is there. `shells.sh` has what asks for more.
set -euo pipefail
cd "$(dirname "${BASH_SOURCE[0]}")/../.."
place=$(mktemp -d)
trap 'rm -rf "$place"' EXIT
prefix=$place/prefix
make --silent install PREFIX="$prefix"

fail() {
  echo "tests/install: $1" >&2
  exit 1
}

same() { # WHAT EXPECTED FOUND
  [ "$2" = "$3" ] || fail "$1: expected '$2', found '$3'"
}

# One version, wherever it is said.
version=$(sed -n 's/^#define CESR_VERSION "\(.*\)"$/\1/p' include/cesr.h)
same "the command" "cesr $version" "$("$prefix/bin/cesr" --version)"
said=$(printf MAAB | "$prefix/bin/cesr" judge --json | python3 -c 'import json, sys; print(json.load(sys.stdin)["version"])')
same "JSON" "$version" "$said"
same "cesr.pc" "Version: $version" "$(grep ^Version "$prefix/lib/pkgconfig/cesr.pc")"
grep -q "cesr $version" "$prefix/share/man/man1/cesr.1" || fail "the man page has another version"
grep -q "^## $version" CHANGELOG.md || fail "CHANGELOG.md does not begin with $version"

# The shared library's name, and what it shows: the calls of the header, all of them and no other.
soname=libcesr.so.$(echo "$version" | cut -d. -f1,2)
readelf -d "$prefix/lib/libcesr.so" | grep -q "SONAME.*\[$soname\]" || fail "libcesr.so is not $soname"
[ "$(readlink -f "$prefix/lib/libcesr.so")" = "$(readlink -f "$prefix/lib/$soname")" ] || fail "$soname is another file"
"${CC:-cc}" -E -P -I"$prefix/include" "$prefix/include/cesr.h" | grep -o '\bcesr_[a-z_]*(' | tr -d '(' | sort -u > "$place/declared"
nm -D --defined-only "$prefix/lib/libcesr.so" | awk '{ print $3 }' | sort > "$place/shown"
diff "$place/declared" "$place/shown" || fail "the header and the library have not the same calls"

# A program's flags: of pkg-config, or read from its file.
flags() { # cflags|libs
  if command -v pkg-config > /dev/null; then
    PKG_CONFIG_PATH=$prefix/lib/pkgconfig pkg-config --"$1" cesr
  elif [ "$1" = cflags ]; then
    echo "-I$prefix/include"
  else
    echo "-L$prefix/lib -lcesr"
  fi
}
# shellcheck disable=SC2046
"${CC:-cc}" -std=c11 -Wall -Wextra -Werror -pedantic $(flags cflags) tests/install/judge.c -o "$place/shared" $(flags libs)
"${CC:-cc}" -std=c11 -Wall -Wextra -Werror -pedantic -I"$prefix/include" tests/install/judge.c "$prefix/lib/libcesr.a" -o "$place/static"
readelf -d "$place/shared" | grep -q "NEEDED.*\[$soname\]" || fail "the program is not linked to $soname"
for program in shared static; do
  judged() { # STREAM
    LD_LIBRARY_PATH=$prefix/lib "$place/$program" < "samples/$1" > "$place/said" && echo 0 >> "$place/said" || echo $? >> "$place/said"
    tr '\n' ';' < "$place/said"
  }
  same "$program, a refusal" "item 2 refused 8 at 80: pad bit or lead byte not zero;5 items, 1 refused;1;" "$(judged first.cesr)"
  same "$program, a pass" "5 items, 0 refused;0;" "$(judged clean.cesr)"
  same "$program, a remainder" "remainder 4 from 8;1 items, 0 refused;1;" "$(judged cut.cesr)"
done

# Python finds the library from where it is installed, and by its name.
asked='import cesr; print(cesr.judge("text", b"MAAB").passed, cesr.version())'
said=$(cd "$place" && PYTHONPATH=$prefix/share/cesr/python python3 -c "$asked")
same "Python" "True $version" "$said"
CESR_LIBRARY=$prefix/lib/libcesr.so python3 python/test_cesr.py --quiet 2> "$place/python" || { cat "$place/python"; exit 1; }

# What bash offers at the end of a line.
offered() { # WORDS.., the last one begun
  local file=$prefix/share/bash-completion/completions/cesr
  bash -c 'source "$1"; shift; COMP_WORDS=(cesr "$@"); COMP_CWORD=$#; _cesr; echo "${COMPREPLY[*]}"' bash "$file" "$@"
}
same "bash: commands" "judge" "$(offered ju)"
same "bash: options" "--html --help" "$(offered judge --h)"
same "bash: options of another" "--to --out --help" "$(offered convert --)"
same "bash: options to write" "--index" "$(offered write --i)"
same "bash: a form to write" "text" "$(offered group --form t)"
same "bash: forms" "text binary mixed" "$(offered judge --form '')"
same "bash: forms to write in" "text binary" "$(offered write --form '')"
same "bash: forms to convert to" "text binary" "$(offered convert --to '')"
same "bash: engines" "first second both" "$(offered judge --engine '')"
same "bash: a form behind =" "binary" "$(offered show --form = b)"
same "bash: files are left to bash" "" "$(offered judge --all sa)"
same "bash: no options behind --" "" "$(offered judge -- --f)"

# Every option of the help stands in the man page, in its synopsis and by itself, and in each completion; and no other does.
"$prefix/bin/cesr" --help | grep -o -- '--[a-z][a-z]*' | sort -u | grep -v -x -e --version > "$place/options"
for part in SYNOPSIS OPTIONS; do
  sed -n "/^\.SH $part/,/^\.SH [DE]/p" man/cesr.1 | sed 's/\\-/-/g' > "$place/$part"
done
for file in "$place/SYNOPSIS" "$place/OPTIONS" completions/cesr.bash completions/_cesr completions/cesr.fish; do
  sed 's/ -l \([a-z]\)/ --\1/g' "$file" | grep -o -- '--[a-z][a-z]*' | sort -u | grep -v -x -e --version > "$place/found"
  diff "$place/options" "$place/found" || fail "$file has not the options of the help"
done

# Installed for a package, and taken away again.
make --silent install PREFIX=/usr DESTDIR="$place/package"
grep -q '^prefix=/usr$' "$place/package/usr/lib/pkgconfig/cesr.pc" || fail "a package's cesr.pc has another prefix"
make --silent uninstall PREFIX=/usr DESTDIR="$place/package"
same "uninstall leaves" "" "$(cd "$place/package" && find . ! -type d)"
echo "installed: the command, C, Python and bash as they should be"
