# Runs a program of the repository with the words in `$@`, standard input, output and status. ./zumode and ./explore load it, which say
#
#   name     the program, as build/ and messages have it; in capitals, the variable of the environment that names another one
#   crate    the crate whose `main` it is
#   said     what one of its runs is called, where it isn't proved
#   none     the status that says that there is no program to run: one that the program never has
#   reads    the commands that read, each with how many words behind it are no FILE
#   valued   the options that have a value
#   help     a function that prints how it is used
#
# and `top`, where the repository is. The program is the proved one, which ./prove or `rt ci` builds. Where none is built of these sources,
# the kit makes one without proof (tools/unproved_program). That one is kept as well, and standard error says after each of its runs that
# it isn't proved. --help, -h and --version are answered here; --program prints where the program is. A FILE after a command that reads is
# handed to the program as standard input. Where it is refused and standard error is a terminal, tools/why shows the place.

say() {
  echo "$name: $1" >&2
}

fail() {
  say "$1"
  exit "$2"
}

# Whether build/NAME was made of the sources as they are. They are the folders src/ and crates.txt: what stands in specs/ and proofs/
# changes no byte of the program, only what is proved of it, at which ./prove and rt ci look. The list beside the program has each
# source and each of their folders, so that one that came or went shows by its folder, and one that was written by its own time: of all
# these the program has to be the newest. It has the time at which its build began. One `ls` of a list is cheaper than any search.
is_current() {
  local newest=
  [ -x "$top/build/$1" ] && [ -s "$top/build/$1.sources" ] || return 1
  read -r newest < <(cd "$top" && exec ls -dt -- "build/$1" $(<"build/$1.sources") 2>/dev/null)
  [ "$newest" = "build/$1" ]
}

# Takes the program that the kit has proved and linked by itself, as `rt ci` does, where nothing changed since.
adopt() {
  local linked=$top/crates/$crate/out/$crate
  [ -x "$linked" ] || return 1
  [ -z "$(find "$top/crates.txt" "$top"/crates/*/{src,specs,proofs} -newer "$linked" -print -quit 2>/dev/null)" ] || return 1
  mkdir -p "$top/build" && "$top/tools/install_program" "$linked" "$linked" "$name"
}

# Sets `program`, and `proved` where it is the proved one.
choose() {
  local other=${name^^}
  proved=yes
  program=${!other-}
  [ -z "$program" ] || return 0
  program=$top/build/$name
  if is_current "$name" || adopt; then return 0; fi
  proved=
  program=$top/build/unproved-$name
  is_current "unproved-$name" || "$top/tools/unproved_program" "$name" || exit "$none"
}

version() {
  echo "$name, for descriptions of version 1 and 2"
  echo "sources: $(git -C "$top" describe --always --dirty 2>/dev/null || echo unknown)"
  if is_current "$name"; then
    echo "program: proved"
  elif is_current "unproved-$name"; then
    echo "program: not proved; ./prove builds the proved one"
  else
    echo "program: none of these sources is built; the next call makes one without proof"
  fi
}

# Takes a FILE from the words: the first one that may be one and is neither an option nor the value of one.
take_file() {
  local at
  [ -n "${words[0]-}" ] && [ -n "${reads[${words[0]}]-}" ] || return
  for ((at = 1 + ${reads[${words[0]}]}; at < ${#words[@]}; at += 1)); do
    case ${words[at]} in
      '') ;;
      -*) [[ " $valued " != *" ${words[at]} "* ]] || at=$((at + 1)) ;;
      *)
        file=${words[at]}
        words=("${words[@]:0:at}" "${words[@]:at+1}")
        return
        ;;
    esac
  done
}

# Shows the place at which the FILE is refused, where its description is.
show_place() {
  local other=${name^^} told
  told=$(export "$other=$program" && "$top/tools/why" "$file" "${words[0]}")
  [ $? -ne 3 ] || echo "$told" >&2
}

words=("$@")
file=
case ${1-} in
  -h | --help) help; exit ;;
  --version) version; exit ;;
  --program) choose; echo "$program"; exit ;;
esac
take_file
if [ -n "$file" ]; then
  [ -r "$file" ] || fail "can't read $file" 4
fi
choose
[ -z "$file" ] || exec < "$file"
[ ! -t 2 ] || [ -z "$file" ] || shows_place=yes
if [ -n "$proved" ] && [ -z "${shows_place-}" ]; then
  exec "$program" "${words[@]}"
fi
"$program" "${words[@]}"
status=$?
[ "$status" -ne 3 ] || [ -z "${shows_place-}" ] || show_place
[ -n "$proved" ] || say "this $said isn't proved: ./prove builds the proved program (an hour, with progress, once), as rt ci does"
exit "$status"
