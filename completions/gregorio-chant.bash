# Completes the words of gregorio-chant in bash. Source it, or put it into share/bash-completion/completions/gregorio-chant.

# Prints the options of a sub-command.
_gregorio_chant_options() {
  case "$1" in
    check) echo '--staged --exclude --output-format --select --ignore --fail-on --rules --fix --unsafe-fixes --diff --jobs --no-config --quiet --help' ;;
    format) echo '--staged --exclude --check --diff --wrap --canonical --allow --jobs --no-config --quiet --help' ;;
    show) echo '--exclude --output --svg --width --no-initial --face --neumes --no-messages --play --font --watch --rules --no-config --help' ;;
    page) echo '--port --rules --no-config --help' ;;
    explain) echo '--all --help' ;;
    export) echo '--to --exclude --folder --force --tempo --no-config --quiet --help' ;;
    find) echo '--interval --volpiano --neume --text --semitones --exclude --output-format --bom --jobs --no-config --quiet --help' ;;
    index) echo '--header --exclude --output-format --bom --jobs --no-config --quiet --help' ;;
    neumes) echo '--each --exclude --output-format --bom --jobs --no-config --quiet --help' ;;
    server) echo '--rules --no-config --help' ;;
    version) echo '--help' ;;
    *) echo '--version --help' ;;
  esac
}

# Completes the last of words between commas.
_gregorio_chant_list() {
  local last="${1##*,}" word
  while IFS= read -r word; do
    COMPREPLY+=("${1%"$last"}$word")
  done < <(compgen -W "$2" -- "$last")
}

# Completes a score: names that end in .gabc, in whichever case, and folders.
_gregorio_chant_scores() {
  local name
  while IFS= read -r name; do
    if [[ -d $name || ${name,,} == *.gabc ]]; then
      COMPREPLY+=("$name")
    fi
  done < <(compgen -f -- "$1")
}

_gregorio_chant() {
  local word="${COMP_WORDS[COMP_CWORD]}" before="${COMP_WORDS[COMP_CWORD - 1]}" command="${COMP_WORDS[1]}"
  local codes='E E1 E2 E3 E4 E5 E6 W W1 W2 W3 W4 W5 W6 W7 W8 W9 W10 W11 W12 F F1 F2 F3 F4 F5 F6 F7'
  local rules='outside-staff bracket-in-attribute nabc-without-header comment asterisk-without-bar clef-off-staff unknown-mode mode-without-number misspelled-header blank-before-notes late-punctuation missing-blank bar-as-text typed-hyphen html-entity syllable-without-notes notes-in-translation unused-alteration second-score-line lone-capital unknown-special unused-ignore'
  COMPREPLY=()
  if [ "$COMP_CWORD" = 1 ] && [[ $word != -* ]]; then
    mapfile -t COMPREPLY < <(compgen -W 'check format show page explain export find index neumes server version' -- "$word")
    return
  fi
  case "$before" in
    --output-format)
      local forms='text csv json'
      [ "$command" = check ] && forms='text lines json github sarif'
      mapfile -t COMPREPLY < <(compgen -W "$forms" -- "$word")
      ;;
    --select | --ignore | --fail-on) _gregorio_chant_list "$word" "$codes rules $rules" ;;
    --allow) _gregorio_chant_list "$word" 'E1 E2 E3 E4 E5 E6 W2 W3 W4 W5 W9 comments spelling' ;;
    --exclude | --output | -o | --font) mapfile -t COMPREPLY < <(compgen -f -- "$word") ;;
    --face) mapfile -t COMPREPLY < <(compgen -W 'square plain' -- "$word") ;;
    --neumes) mapfile -t COMPREPLY < <(compgen -W 'auto stgall modern laon text' -- "$word") ;;
    --to) mapfile -t COMPREPLY < <(compgen -W 'volpiano musicxml mei midi' -- "$word") ;;
    --folder) mapfile -t COMPREPLY < <(compgen -d -- "$word") ;;
    --jobs | --wrap | --width | --port | --interval | --volpiano | --neume | --text | --header | --tempo) ;;
    *)
      if [[ $word == -* ]]; then
        mapfile -t COMPREPLY < <(compgen -W "$(_gregorio_chant_options "$command")" -- "$word")
      elif [ "$command" = explain ]; then
        mapfile -t COMPREPLY < <(compgen -W "$codes $rules" -- "$word")
      elif [[ $command != page && $command != server && $command != version ]]; then
        _gregorio_chant_scores "$word"
      fi
      ;;
  esac
}

complete -o filenames -F _gregorio_chant gregorio-chant
