# The Python package, unpacked into a folder of the caller's own so that nothing has to be installed. For scripts, which source it: `room`, `here`, `python` and
# `brought`, the folder of what was brought for Python, are theirs.

# Runs Python with the package and with the packages that were brought.
run_python() { PATH="$room/bin:$PATH" PYTHONDONTWRITEBYTECODE=1 PYTHONPATH="$room/package:$brought" "$python" "$@"; }

# Unpacks the wheel, and makes the command.
unpack_wheel() {
  mkdir -p "$room/package" "$room/bin"
  (cd -- "$here/python" && "$python" -B -c 'import sys, wheel_backend; wheel_backend.build_wheel(sys.argv[1])' "$room") &&
    "$python" -m zipfile -e "$room"/*.whl "$room/package" && "$python" -m compileall -q "$room/package" && chmod -R a+rX "$room/package" || return 1
  printf '#!/bin/bash\nPYTHONPATH=%q exec %q -m gregorio_chant "$@"\n' "$room/package:$brought" "$python" >"$room/bin/gregorio-chant"
  chmod 755 "$room/bin/gregorio-chant"
}

# Runs tests by python/tests/run.py, adds what they counted to `passed`, `failed` and `skipped`, and shows what failed or was skipped. `name` is the caller's.
try_tests() {
  local last
  run_python "$here/python/tests/run.py" "$@" >"$room/tests" 2>&1
  last="$(tail -n 1 "$room/tests")"
  grep -E '^skipped: ' "$room/tests" | sed "s/^/$name: /"
  if [[ $last =~ ^([0-9]+)\ passed,\ ([0-9]+)\ failed,\ ([0-9]+)\ skipped$ ]]; then
    passed=$((passed + BASH_REMATCH[1]))
    failed=$((failed + BASH_REMATCH[2]))
    skipped=$((skipped + BASH_REMATCH[3]))
    [ "${BASH_REMATCH[2]}" = 0 ] || cat "$room/tests"
  else
    check 'the tests end' false
    cat "$room/tests"
  fi
}
