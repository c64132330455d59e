# The module of LLVM that the proved library for C is compiled of, made one for another machine. For scripts, which source it: `name` is how they call themselves,
# and `root`, `kit` and `work`, a folder of their own, are theirs.
readonly EXPORT=gregorio_c
module="$root/crates/$EXPORT/out/$EXPORT.bc"
# shellcheck source=tools/origin.bash
. "$root/tools/origin.bash"

tell() { echo "$name: $1" >&2; }

# Runs a command quietly, and shows what it wrote and ends if it fails.
step() {
  "$@" >"$work/log" 2>&1 && return
  cat -- "$work/log" >&2
  tell "failed: $1"
  exit 1
}

# The kit's compiler for the target $1, with these further words.
clang_for() {
  local target="$1"
  shift
  step "$kit/toolchain/bin/clang" --target="$target" --no-default-config -Werror "$@"
}

# Writes the text of the module for the target $1 into the file $2: with that target's layout, without the attributes of x86-64, of which $3 are the names, as a
# pattern, and with a function for the one instruction that it names. An attribute group that has none left says that nothing unwinds, as the others do.
write_module() {
  local layout
  echo 'int nothing;' >"$work/nothing.c"
  clang_for "$1" -S -emit-llvm "$work/nothing.c" -o "$work/nothing.ll"
  layout="$(grep '^target datalayout' "$work/nothing.ll")"
  step "$kit/toolchain/bin/clang" --no-default-config -S -emit-llvm -O0 -Xclang -disable-llvm-passes -x ir "$module" -o "$work/module.ll"
  sed -E -e "s/^target datalayout = .*/$layout/" -e "s/^target triple = .*/target triple = \"$1\"/" -e "/^attributes /s/ \"($3)\"=\"[^\"]*\"//g" \
    -e 's/^(attributes #[0-9]+ = \{) *\}/\1 nounwind }/' -e 's/@llvm\.x86\.ssse3\.pshuf\.b\.128/@shuffle_bytes/g' "$work/module.ll" >"$2"
}

# Compiles the version of the library for the target $1 into the object $2, with these further words.
compile_version() {
  local target="$1" object="$2"
  shift 2
  printf 'extern const char gregorio_version[];\nconst char gregorio_version[] = "%s";\n' "$(cat -- "$root/VERSION")" >"$work/version.c"
  clang_for "$target" "$@" -c "$work/version.c" -o "$object"
}
