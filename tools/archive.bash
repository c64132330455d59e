# Makes the library for C of what was compiled. For scripts, which source it: `root` is theirs, and so is `TOOLS`, with which the names of another machine's tools
# begin.

# Puts libgregorio.a, libgregorio.so and gregorio.h into the folder $1, of the objects and archives after it. The only names for others are those of the header.
# Each file is put there whole: who uses the one before goes on with that.
make_library() {
  local folder="$1" parts compiler="${TOOLS:+${TOOLS}gcc}"
  : "${compiler:=${CC:-cc}}"
  shift
  mkdir -p -- "$folder"
  parts="$(mktemp -d -p "$folder" .parts.XXXXXX)"
  printf 'const char gregorio_version[] = "%s";\n' "$(cat -- "$root/VERSION")" | "$compiler" -c -fPIC -x c -o "$parts/version.o" -
  "${TOOLS-}ld" -r -o "$parts/gregorio.o" "$parts/version.o" --whole-archive "$@" --no-whole-archive
  "${TOOLS-}objcopy" --wildcard --keep-global-symbol='gregorio_*' "$parts/gregorio.o"
  "${TOOLS-}ar" rcs "$parts/libgregorio.a" "$parts/gregorio.o"
  "$compiler" -shared -Wl,-soname,libgregorio.so "-Wl,--version-script=$root/c/gregorio.map" -Wl,-z,defs -o "$parts/libgregorio.so" \
    -Wl,--whole-archive "$parts/libgregorio.a" -Wl,--no-whole-archive
  cp -- "$root/c/gregorio.h" "$parts/"
  mv -f -- "$parts"/{libgregorio.a,libgregorio.so,gregorio.h} "$folder/"
  rm -rf -- "$parts"
}
