# Completion of chtab's words for bash: tools and options as `--help` has them, and files.

# The lines of a part of a help text: _chtab_part HEADING WORD..
_chtab_part() {
  local heading=$1
  shift
  "$@" --help 2>/dev/null | sed -n "/^$heading:/,/^\$/p" | sed 1d
}

_chtab() {
  local current=${COMP_WORDS[COMP_CWORD]} program=${COMP_WORDS[0]} tool=${COMP_WORDS[1]} tools
  tools=$(_chtab_part Commands "$program" | awk '$1 != "help" { print $1 }')
  COMPREPLY=()
  if [ "$COMP_CWORD" -eq 1 ]; then
    mapfile -t COMPREPLY < <(compgen -W "$tools --help --version" -- "$current")
  elif [[ $current == -* ]] && grep -qxF -e "$tool" <<<"$tools"; then
    mapfile -t COMPREPLY < <(compgen -W "$(_chtab_part Options "$program" "$tool" | grep -oE '^ +(-h, )?--[a-z]+' | grep -oE -e '--[a-z]+')" -- "$current")
  fi
}

# Where there is no such word, files are named.
complete -o default -F _chtab chtab
