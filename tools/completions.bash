# Tries the completions in real shells. For tools/try_release, which sources it: `room`, `check`,
# `skip`, `is` and `has_tool` are its own.

# Makes a folder with a score, another file and a folder, and goes there.
begin_completions() {
  rm -rf -- "$room/empty"
  mkdir -p -- "$room/empty/folder"
  cd -- "$room/empty" || exit 1
  touch 'a score.gabc' other.txt
}

# Prints what bash completes, over the file $1, for the function $2 and the words after it.
bash_completes() {
  # shellcheck disable=SC2016
  bash --norc -c '. "$1"; function="$2"; shift 2; COMP_WORDS=("$@"); COMP_CWORD=$(($# - 1)); "$function"; printf "%s," "${COMPREPLY[@]}"' bash "$@"
}

# Tries the completions of both packages, which stand in the folder $2, in bash.
try_bash_of() {
  local what="$1" folder="$2"
  begin_completions
  shift
  completes() { is "$(bash_completes "$folder/$1" "_${1//-/_}" "${@:1:$#-1}")" "${*: -1}"; }
  check "$what: bash: options" completes gregorio-canonical - '-F,-W,-l,-o,-S,-s,-h,'
  check "$what: bash: formats" completes gregorio-canonical -F '' 'gabc,dump,'
  check "$what: bash: a format" completes gregorio-canonical -F d 'dump,'
  check "$what: bash: a score" completes gregorio-canonical -W '' 'a score.gabc,folder,'
  check "$what: bash: a file" completes gregorio-canonical -o o 'other.txt,'
  check "$what: bash: a score for the script" is "$(bash_completes "$folder/check_canonical" _check_canonical check_canonical a)" 'a score.gabc,'
  check "$what: bash: sub-commands" completes gregorio-chant '' 'check,format,show,page,explain,export,find,index,neumes,server,version,'
  check "$what: bash: options of a sub-command" completes gregorio-chant check --se '--select,'
  check "$what: bash: codes in a list" completes gregorio-chant check --select E1,W1 'E1,W1,E1,W10,E1,W11,E1,W12,'
  check "$what: bash: a score or a folder" completes gregorio-chant format '' 'a score.gabc,folder,'
}

# Whether a zsh with the completions of the folder $1 shows what the expression $3 finds if a tab is
# after the words $2: it runs in a terminal that another zsh makes, and has half a minute.
zsh_shows() {
  mkdir -p -- "$room/rc"
  echo 'setopt no_global_rcs' >"$room/rc/.zshenv"
  cat >"$room/rc/.zshrc" <<'RC'
for folder in "$FILES"/usr/lib/*/zsh/*(N/); do module_path=("$folder" $module_path); done
for folder in "$FILES"/usr/share/zsh/functions/**/*(N/); do fpath=("$folder" $fpath); done
fpath=("$FOLDER" $fpath)
PS1=
autoload -Uz compinit
compinit -u -D
unsetopt beep
LISTMAX=1000
print rea''dy
RC
  cat >"$room/rc/ask" <<'ASK'
for folder in "$FILES"/usr/lib/*/zsh/*(N/); do module_path=("$folder" $module_path); done
zmodload zsh/zpty || exit 1
zpty inner env TERM=dumb COLUMNS=160 zsh -i
zpty -r inner line '*ready*' || exit 1
zpty -n -w inner "$1"$'\t'
shown=
found=1
for turn in {1..300}; do
  sleep 0.1
  while zpty -rt inner more; do shown+=$more; done
  if grep -q -e "$2" <<<"$shown"; then
    found=0
    break
  fi
done
zpty -d inner
exit $found
ASK
  ZDOTDIR="$room/rc" FOLDER="$1" FILES="$room/apt/files" timeout 60 zsh -f "$room/rc/ask" "$2" "$3" 2>/dev/null
}

# Tries the completions of both packages, which stand in the folder $2, in zsh.
try_zsh_of() {
  local what="$1" folder="$2"
  begin_completions
  if ! has_tool zsh; then
    skip "$what: completions of zsh: there is no zsh"
    return
  fi
  shows() { zsh_shows "$folder" "$@"; }
  check "$what: zsh: options" shows 'gregorio-canonical -' '^-F  -- write this format'
  check "$what: zsh: a format" shows 'gregorio-canonical -F d' '-F dump'
  check "$what: zsh: a score" shows 'gregorio-canonical -W a' 'score\.gabc'
  check "$what: zsh: a score for the script" shows 'check_canonical a' 'score\.gabc'
  check "$what: zsh: sub-commands" shows 'gregorio-chant ' 'explain  *-- explain a code or a rule'
  check "$what: zsh: options of a sub-command" shows 'gregorio-chant check --' '--fail-on  *-- end with status 1'
  check "$what: zsh: a form" shows 'gregorio-chant check --output-format s' '--output-format sarif\|--output-format=sarif'
  check "$what: zsh: a code" shows 'gregorio-chant explain W12' 'W12 '
  check "$what: zsh: a score for a sub-command" shows 'gregorio-chant format a' 'score\.gabc'
}
