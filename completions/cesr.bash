# Completion of the command cesr for bash: its commands, the options of each, and forms. What is left to files is completed as bash does it.

# The options of a command.
_cesr_options() {
  case $1 in
    judge) echo --form --engine --manifest --live --all --json --report --html --junit --sarif --help ;;
    convert) echo --to --out --help ;;
    show | manifest) echo --form --help ;;
    group) echo --form --out --help ;;
    write) echo --form --index --ondex --raw --tag --text --out --help ;;
    compare) echo --json --help ;;
    expect) echo --form --out --help ;;
    numbers) echo --help ;;
  esac
}

_cesr() {
  local word=${COMP_WORDS[COMP_CWORD]} before=${COMP_WORDS[COMP_CWORD - 1]} words
  # Bash takes --form=text for three words.
  if [ "$word" = = ]; then
    word=
  elif [ "$before" = = ]; then
    before=${COMP_WORDS[COMP_CWORD - 2]}
  fi
  COMPREPLY=()
  if [ "$COMP_CWORD" -eq 1 ]; then
    words="judge convert show group write manifest compare expect numbers help --help --version"
  elif [[ " ${COMP_WORDS[*]:1:COMP_CWORD - 1} " = *" -- "* ]]; then
    return
  else
    case $before in
      --form)
        words="text binary"
        [[ " judge show manifest " = *" ${COMP_WORDS[1]} "* ]] && words+=" mixed" ;;
      --to) words="text binary" ;;
      --engine) words="first second both" ;;
      *) [[ $word = -* ]] || return
        words=$(_cesr_options "${COMP_WORDS[1]}") ;;
    esac
  fi
  mapfile -t COMPREPLY < <(compgen -W "$words" -- "$word")
}

complete -o default -o bashdefault -F _cesr cesr
