# Runs modules of tools/trials by pytest, which is brought where Python has none. For scripts, which
# source it: `here` is theirs, and `room` is a folder that does not stay.

# shellcheck source=tools/bring.bash
. "$here/tools/bring.bash"
room="$(mktemp -d)" || exit 1
trap 'rm -rf -- "$room"' EXIT

# Runs the modules, with further words for pytest, and returns 0 if nothing failed. The last line
# counts what passed, failed and was skipped. Where pytest cannot be had, that is one failed.
run_trials() {
  local brought='' python=python3
  "$python" -c 'import pytest' 2>/dev/null || bring_missing python3-pytest
  if ! PYTHONPATH="$brought" "$python" -c 'import pytest' 2>/dev/null; then
    echo "${0##*/}: failed: there is no pytest"
    echo '0 passed, 1 failed, 0 skipped'
    return 1
  fi
  env -C "$here/tools/trials" PYTHONPATH="$here/tools${brought:+:$brought}" "$python" -B -m house.counted "$@"
}
