#!/usr/bin/env bash
# A stand-in for `rt`, which proves nothing. Writes each call into the file `calls` of the folder
# ROOM, and how many jobs it is told to run into the file `jobs`. Fails in the crate that the file
# `broken` names. Edits the file that `edits` names. The program that it makes prints its words and
# its standard input, and ends with the status STATUS.
crate="$(basename "$PWD")"
case "$1" in
  doc) exec echo "$ROOM/kit/START" ;;
  version) exec cat "$ROOM/kit/version" ;;
esac
[ -e "$ROOM/said" ] || grep -c -e 'are proved and built now' -e 'a first build takes .* minutes' "$ROOM/messages" >"$ROOM/said"
echo "$1 $crate" >>"$ROOM/calls"
[ "${2-}" != --jobs ] || echo "$3" >>"$ROOM/jobs"
echo "a line that rt writes of $crate"
if [ -e "$ROOM/broken" ] && [ "$(cat "$ROOM/broken")" = "$crate" ]; then
  echo "error: $crate does not prove" >&2
  exit 1
fi
if [ "$1 $crate" = 'lib gregorio_c' ]; then
  mkdir -p out
  echo 'int gregorio_compile(void) { return 0; } int inner(void) { return 0; }' | "${CC:-cc}" -fPIC -c -x c -o out/export.o - || exit
  ar rcs out/libgregorio_c.a out/export.o
elif [ "$1" = lib ]; then
  mkdir -p "out/rlib/$crate.rlib"
  touch "out/rlib/$crate.rlib" out/rlib/stamp
fi
if [ -e "$ROOM/edits" ]; then touch "$(cat "$ROOM/edits")"; rm "$ROOM/edits"; fi
if [ "$1 $crate" = 'run vectors' ] || [ "$1 $crate" = 'run call_rows' ]; then
  mkdir -p out
  printf '#!/bin/sh\ncat rows\n' >"out/$crate"
  chmod +x "out/$crate"
  touch "out/$crate.stamp"
  exec "out/$crate"
fi
if [ "$1" = run ]; then
  cat >/dev/null
  mkdir -p out
  [ -e "$ROOM/keeps" ] || cat >out/gregorio_cli.new <<'PROGRAM'
#!/usr/bin/env bash
printf 'program'
printf ' [%s]' "$@"
printf '\n'
cat
exit "${STATUS:-0}"
PROGRAM
  if [ -e out/gregorio_cli.new ]; then chmod +x out/gregorio_cli.new && mv out/gregorio_cli.new out/gregorio_cli; fi
fi
