# Completion of zumode for bash. Load it by: source completions/zumode.bash
#
# A command is one line of `_zumode_options`: its word, and the words that may follow it. Where none of them fits, names of files do.

declare -gA _zumode_options=(
  [sim]="--cpus --pick"
  [run]="--cpus"
  [summary]="--cpus --pick"
  [layout]=""
  [gen]=""
  [upgrade]=""
  [audit]=""
)

_zumode() {
  local word=${COMP_WORDS[COMP_CWORD]} before=${COMP_WORDS[COMP_CWORD - 1]} given option
  COMPREPLY=()
  if [ "$COMP_CWORD" -eq 1 ]; then
    mapfile -t COMPREPLY < <(compgen -W "${!_zumode_options[*]} ${word:+--help --version}" -- "$word" | sort)
    return
  fi
  case $before in
    --cpus) mapfile -t COMPREPLY < <(compgen -W "1 2 3 4 5 6 7 8" -- "$word"); return ;;
    --pick) return ;;
  esac
  # Options are offered where one begins; else the word is a file's name.
  [[ $word == -* ]] || return
  given=" ${COMP_WORDS[*]:2} "
  for option in ${_zumode_options[${COMP_WORDS[1]}]-}; do
    # An option stands at most once.
    [[ $given == *" $option "* ]] && [ "$option" != "$word" ] && continue
    [[ $option == "$word"* ]] && COMPREPLY+=("$option")
  done
}

complete -o bashdefault -o default -F _zumode zumode ./zumode
