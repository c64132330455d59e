# Says where a build is from. For scripts, which source it.

# What git says of the commit of the repository at the folder $1. Changes of files that git knows
# are said too.
commit_line() {
  local commit changed=''
  commit="$(git -C "$1" rev-parse HEAD 2>/dev/null)" || commit=unknown
  [ -z "$(git -C "$1" status --porcelain --untracked-files=no 2>/dev/null)" ] || changed=', with changes'
  echo "commit $commit$changed"
}

# What the kit says of itself.
kit_line() { echo "kit $(rt version 2>/dev/null || echo 'rattle-kit unknown')"; }

# Whether the extension for VS Code $1 is there, and says the same of its making as the file BUILD $2.
is_extension_current() {
  cmp -s <(python3 -c 'import sys, zipfile; sys.stdout.buffer.write(zipfile.ZipFile(sys.argv[1]).read("extension/BUILD"))' "$1" 2>/dev/null) "$2"
}

# Whether the page $1 is there, and is of the commit that the file BUILD $2 names.
is_page_current() { grep -q -x -F "<meta name=\"build\" content=\"$(head -n 1 -- "$2")\">" "$1" 2>/dev/null; }
