# Brings packages that are not installed into a folder of the caller's own. For scripts, which source it. Nothing of the system changes: apt's lists,
# its cache and the packages' files lie in that folder.

# Asks apt-get, with all that it writes below the folder `bring_room`.
bring_apt() {
  apt-get -qq -o APT::Sandbox::User=root -o Debug::NoLocking=1 -o Dir::State::lists="$bring_room/lists" -o Dir::Cache="$bring_room/cache" \
    -o Acquire::Retries=2 -o Acquire::http::Timeout=5 -o Acquire::https::Timeout=5 -o Acquire::ForceIPv4=true "$@"
}

# Makes the folder $1 ready, with apt's lists: within two minutes, else it fails. It fails too where there is no apt-get, or no network.
begin_bringing() {
  bring_room="$1"
  command -v apt-get >/dev/null && command -v dpkg >/dev/null || return 1
  mkdir -p -- "$bring_room"/{lists,cache/archives}/partial "$bring_room"/{files,packages} || return 1
  export bring_room
  export -f bring_apt
  timeout 120 bash -c 'bring_apt -o APT::Update::Error-Mode=any update' >/dev/null 2>&1
}

# Brings these packages into the folder $1/files, without what they need: within ten minutes, else it fails.
bring_alone() {
  local file
  bring_room="$1"
  shift
  [ -d "$bring_room/lists" ] || begin_bringing "$bring_room" || return 1
  rm -rf -- "$bring_room/packages"
  mkdir -- "$bring_room/packages" || return 1
  (cd -- "$bring_room/packages" && timeout 600 bash -c 'bring_apt download "$@"' bring "$@") >/dev/null 2>&1 || return 1
  for file in "$bring_room"/packages/*.deb; do
    dpkg -x "$file" "$bring_room/files" || return 1
  done
}

# Brings the packages, and what they need and the system lacks, into the folder $1/files: within twelve minutes, else it fails. It fails too where
# there is no apt-get, or no network.
bring() {
  local names
  begin_bringing "$1" || return 1
  shift
  names="$(bring_apt install --print-uris -y --no-install-recommends "$@" 2>/dev/null | awk '{ sub(/_.*/, "", $2); print $2 }')"
  [ -n "$names" ] || return 1
  # shellcheck disable=SC2086
  bring_alone "$bring_room" $names
}

# Writes a command with this name into the folder $1: it runs the brought program $3 with these further words before its own, or settings NAME=VALUE.
brought_command() {
  local folder="$1" name="$2" program="$3" libraries="$bring_room/files/usr/lib/x86_64-linux-gnu"
  shift 3
  [ -x "$program" ] || return 1
  {
    echo '#!/bin/bash'
    printf 'exec env LD_LIBRARY_PATH=%q' "$libraries:$libraries/pulseaudio:$bring_room/files/lib/x86_64-linux-gnu"
    while [[ ${1-} == *=* && ${1-} != -* ]]; do
      printf ' %q' "$1"
      shift
    done
    printf ' %q' "$program" "$@"
    echo ' "$@"'
  } >"$folder/$name"
  chmod +x -- "$folder/$name"
}

# Writes the commands of the editors vim, nvim and emacs that are not on the path into the folder $1; $2 has the files of their packages.
brought_editors() {
  local folder="$1" files="$2" lisp
  [ -d "$files" ] || return 0
  command -v vim >/dev/null || brought_command "$folder" vim "$files/usr/bin/vim.basic" "VIMRUNTIME=$(echo "$files"/usr/share/vim/vim[0-9]*)"
  command -v nvim >/dev/null || brought_command "$folder" nvim "$files/usr/bin/nvim" "VIMRUNTIME=$files/usr/share/nvim/runtime"
  lisp="$(echo "$files"/usr/share/emacs/[0-9]*)"
  command -v emacs >/dev/null || brought_command "$folder" emacs "$files/usr/bin/emacs-nox" \
    "EMACSLOADPATH=$lisp/lisp:$lisp/lisp/emacs-lisp:$lisp/lisp/progmodes" "EMACSDATA=$lisp/etc" "EMACSDOC=$lisp/etc" \
    "--dump-file=$(find "$files" -name emacs.pdmp | head -n 1)"
}

# Brings what is missing of these packages of Debian's: that of a module of Python, which is for Debian's Python, by its name, and that of a command as
# COMMAND:PACKAGE.
bring_missing() {
  local missing=() it
  python=/usr/bin/python3
  [ -x "$python" ] || python=python3
  brought="$room/apt/files/usr/lib/python3/dist-packages"
  for it in "$@"; do
    case "$it" in
      *:*) command -v "${it%%:*}" >/dev/null || missing+=("${it#*:}") ;;
      *) "$python" -c "import ${it#python3-}" 2>/dev/null || missing+=("$it") ;;
    esac
  done
  [ "${#missing[@]}" = 0 ] || bring "$room/apt" "${missing[@]}" || echo "${0##*/}: ${missing[*]} could not be brought: no apt-get, or no network"
}
