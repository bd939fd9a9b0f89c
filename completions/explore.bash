# Completion of explore for bash. Load it by: source completions/explore.bash
#
# A command is one line of `_explore_options`: its word, and the words that may follow it. Where none of them fits, names of files do.

declare -gA _explore_options=(
  [find]="--states"
  [ends]="--states"
  [next]=""
)

_explore() {
  local word=${COMP_WORDS[COMP_CWORD]} before=${COMP_WORDS[COMP_CWORD - 1]} given option
  COMPREPLY=()
  if [ "$COMP_CWORD" -eq 1 ]; then
    mapfile -t COMPREPLY < <(compgen -W "${!_explore_options[*]} ${word:+--help --version}" -- "$word" | sort)
    return
  fi
  # What is asked, and a number, are no files.
  if [ "$before" = find ] || [ "$before" = --states ]; then
    compopt +o bashdefault +o default 2>/dev/null
    return
  fi
  # Options are offered where one begins; else the word is a file's name.
  [[ $word == -* ]] || return
  given=" ${COMP_WORDS[*]:2} "
  for option in ${_explore_options[${COMP_WORDS[1]}]-}; do
    # An option stands at most once.
    [[ $given == *" $option "* ]] && [ "$option" != "$word" ] && continue
    [[ $option == "$word"* ]] && COMPREPLY+=("$option")
  done
}

complete -o bashdefault -o default -F _explore explore ./explore
