#!/usr/bin/env bash
# What is installed for zsh, fish, man and pkg-config, asked of these programs themselves. Needs them; `run.sh` has what needs none of them.
set -euo pipefail
cd "$(dirname "${BASH_SOURCE[0]}")/../.."
place=$(mktemp -d)
trap 'rm -rf "$place"' EXIT
prefix=$place/prefix
make --silent install PREFIX="$prefix"

same() { # WHAT EXPECTED FOUND
  [ "$2" = "$3" ] || { echo "tests/install: $1: expected '$2', found '$3'" >&2; exit 1; }
}

# fish lists what it offers.
fish_offers() { # LINE
  HOME=$place fish -c "source $prefix/share/fish/vendor_completions.d/cesr.fish; complete -C '$1'" | cut -f1 | sort | tr '\n' ' '
}
same "fish: commands" "judge " "$(fish_offers 'cesr ju')"
same "fish: options" "--help --html " "$(fish_offers 'cesr judge --h')"
same "fish: options of another" "--help --out --to " "$(fish_offers 'cesr convert --')"
same "fish: an option to write" "--index " "$(fish_offers 'cesr write --i')"
same "fish: forms" "binary mixed text " "$(fish_offers 'cesr judge --form ')"
same "fish: forms to expect" "binary text " "$(fish_offers 'cesr expect --form ')"
same "fish: engines" "both first second " "$(fish_offers 'cesr judge --engine ')"
same "fish: files" "samples/clean-binary.cesr samples/clean.cesr " "$(fish_offers 'cesr judge samples/cl')"

# zsh completes a line at its prompt, and a key shows the line.
zsh_completes() { # LINE
  zsh -f << ZSH
zmodload zsh/zpty
zpty shell env HOME=$place TERM=dumb zsh -f -i
zpty -w shell "PROMPT= RPROMPT=; unsetopt zle_bracketed_paste; fpath=($prefix/share/zsh/site-functions \\\$fpath)"
zpty -w shell "autoload -Uz compinit; compinit -u -d $place/dump; show() { print -r -- \"<<\\\$BUFFER>>\" }; zle -N show; bindkey '^X' show"
zpty -w shell "echo rea''dy"
zpty -r shell found '*ready*'
zpty -w -n shell \$'$1\t\x18'
zpty -r shell found '*<<*>>*'
zpty -d shell
print -r -- "\${\${found##*<<}%%>>*}"
ZSH
}
same "zsh: a command" "cesr judge " "$(zsh_completes 'cesr ju')"
same "zsh: an option" "cesr judge --manifest=" "$(zsh_completes 'cesr judge --man')"
same "zsh: an option of another" "cesr convert --to=" "$(zsh_completes 'cesr convert --t')"
same "zsh: no option of another" "cesr convert --man" "$(zsh_completes 'cesr convert --man')"
same "zsh: a form" "cesr judge --form=text " "$(zsh_completes 'cesr judge --form=te')"
same "zsh: another form" "cesr judge --form=mixed " "$(zsh_completes 'cesr judge --form=mi')"
same "zsh: an engine" "cesr judge --engine=second " "$(zsh_completes 'cesr judge --engine=se')"
same "zsh: a file" "cesr judge samples/first" "$(zsh_completes 'cesr judge samples/fi')"

# man finds the page, sets it without a warning, and shows it.
said=$(MANPATH=$prefix/share/man man --warnings=w -P cat cesr 2> "$place/warnings")
same "man: warnings" "" "$(cat "$place/warnings")"
grep -q "cesr - judge, convert, show, compare and write CESR streams" <<< "$said"

# pkg-config tells the version and the flags.
version=$(sed -n 's/^#define CESR_VERSION "\(.*\)"$/\1/p' include/cesr.h)
export PKG_CONFIG_PATH=$prefix/lib/pkgconfig
same "pkg-config" "$version" "$(pkg-config --modversion cesr)"
same "pkg-config: flags" "-I$prefix/include -L$prefix/lib -lcesr" "$(pkg-config --cflags --libs cesr | sed 's/ *$//')"
echo "installed: zsh, fish, man and pkg-config find it"
