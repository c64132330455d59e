# Completes the words of gregorio-canonical and check_canonical in bash. Source it, or put it into share/bash-completion/completions/gregorio-canonical.

# Completes a score: names that end in .gabc, and folders.
_gregorio_canonical_scores() {
  local name
  while IFS= read -r name; do
    if [[ -d $name || $name == *.gabc ]]; then
      COMPREPLY+=("$name")
    fi
  done < <(compgen -f -- "$1")
}

_gregorio_canonical() {
  local word="${COMP_WORDS[COMP_CWORD]}" before="${COMP_WORDS[COMP_CWORD - 1]}"
  COMPREPLY=()
  case "$before" in
    -F)
      mapfile -t COMPREPLY < <(compgen -W 'gabc dump' -- "$word")
      return
      ;;
    -o | -l)
      mapfile -t COMPREPLY < <(compgen -f -- "$word")
      return
      ;;
  esac
  case "$word" in
    -*) mapfile -t COMPREPLY < <(compgen -W '-F -W -l -o -S -s -h' -- "$word") ;;
    *) _gregorio_canonical_scores "$word" ;;
  esac
}

_check_canonical() {
  COMPREPLY=()
  _gregorio_canonical_scores "${COMP_WORDS[COMP_CWORD]}"
}

complete -o filenames -F _gregorio_canonical gregorio-canonical
complete -o filenames -F _check_canonical check_canonical
