# Completions of hleak for bash. tools/shell-pages makes this file of what hleak --help says.

# _hleak_offer WORDS: those of the words that begin with what is typed, and no files
_hleak_offer() {
  compopt +o default
  mapfile -t COMPREPLY < <(compgen -W "$1" -- "$typed")
}

# _hleak_value OPTION: the values of an option; files are left to readline. Status 1 where it has none.
_hleak_value() {
  local words
  case $1 in
    --until) words='complete' ;;
    --workers) words='1 2 3 4 5 6 7 8' ;;
    --since) words='snapshot' ;;
    --symbols|--state) return ;;
    --top|--process|--object|--at-least|--tag|--handle|--points) words='' ;;
    *) return 1 ;;
  esac
  _hleak_offer "$words"
}

# _hleak_command COMMAND: the options and words that a command's line has
_hleak_command() {
  case $1 in
    summary) options='--top --exit-code --until --symbols --workers --state --json --complete --hex --partial --notes --help' needed='' words='' ;;
    outstanding) options='--process --top --exit-code --until --symbols --workers --state --json --complete --hex --partial --notes --help' needed='--process' words='' ;;
    diff) options='--process --since --top --exit-code --until --symbols --workers --state --json --complete --hex --partial --notes --help' needed='--process' words='' ;;
    tags) options='--object --exit-code --until --symbols --workers --state --json --complete --hex --partial --notes --help' needed='--object' words='' ;;
    bad) options='--process --top --exit-code --until --symbols --workers --state --json --complete --hex --partial --notes --help' needed='--process' words='' ;;
    leaks) options='--process --since --at-least --top --exit-code --folded --until --symbols --workers --state --json --complete --hex --partial --notes --help' needed='--process' words='' ;;
    sites) options='--since --at-least --top --exit-code --folded --until --symbols --workers --state --json --complete --hex --partial --notes --help' needed='' words='' ;;
    stacks) options='--object --tag --top --until --symbols --workers --state --json --complete --hex --partial --notes --help' needed='--object --tag' words='' ;;
    balance) options='--tag --top --all --exit-code --until --symbols --workers --state --json --complete --hex --partial --notes --help' needed='' words='' ;;
    trace) options='--process --handle --top --until --symbols --workers --json --complete --hex --partial --notes --help' needed='--process --handle' words='' ;;
    growth) options='--process --points --until --symbols --workers --json --complete --hex --partial --notes --help' needed='--process' words='' ;;
    ask) options='--symbols --workers --state --fold --complete --hex --partial --notes --help' needed='' words='' ;;
    fold) options='--workers --complete --hex --partial --notes --help' needed='' words='' ;;
    explain) options='--notes --help' needed='' words='S1 S2 S3 S4 S5 S6 S7 S8 S9 S10 S11 S12 S13 S14 S15 S16 S17 H1 H2 H3 F1 F2 F3 F4 F5 F6 F7 F8 F9 F10 F11 F12 F13 F14 F15 F16 F17 C1 C2 C3 C4 C5 C6 C7 C8 C9 C10 Y1 Y2 Y3 Y4 Y5 Y6 Y7 E1 E2' ;;
    dump) options='--hex --partial --notes --help' needed='' words='' ;;
    encode) options='--hex --notes --help' needed='' words='' ;;
    *) return 1 ;;
  esac
}

_hleak() {
  local typed=${COMP_WORDS[COMP_CWORD]} before=${COMP_WORDS[COMP_CWORD - 1]}
  local command=${COMP_WORDS[1]} options needed words option left=''
  COMPREPLY=()
  if ((COMP_CWORD == 1)); then
    case $typed in
      -*) _hleak_offer '--help --version' ;;
      *) _hleak_offer 'summary outstanding diff tags bad leaks sites stacks balance trace growth ask fold explain dump encode help' ;;
    esac
    return
  fi
  if [[ $command == help ]]; then
    ((COMP_CWORD > 2)) || _hleak_offer 'summary outstanding diff tags bad leaks sites stacks balance trace growth ask fold explain dump encode'
    return
  fi
  _hleak_command "$command" || return
  if [[ " ${COMP_WORDS[*]:2:COMP_CWORD - 2} " == *' -- '* ]]; then
    return # what follows is files
  fi
  [[ $typed != = ]] || typed='' # a value that follows = is a word of its own
  [[ $before != = ]] || before=${COMP_WORDS[COMP_CWORD - 2]}
  if _hleak_value "$before"; then
    return
  fi
  [[ $typed ]] || options=$needed
  for option in $options; do
    case $option in
      --state) left+="$option " ;; # (it may stand many times)
      *) [[ " ${COMP_WORDS[*]:2} " == *" $option "* && $option != "$typed" ]] || left+="$option " ;;
    esac
  done
  if [[ $typed == -* || (! $typed && $left) ]]; then
    _hleak_offer "$left"
  elif [[ $words ]]; then
    _hleak_offer "$words"
  fi
}

complete -o default -F _hleak hleak
