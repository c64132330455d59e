# Reads crates.txt, puts crates in the order in which they are built, and says how many checks run side by side and whether what was built is current. For
# scripts, which source it.

# Reads crates.txt of the repository at this folder: `needs` gets each crate, with the crates of the repository that it names.
declare -A needs=()
read_crates() {
  local line name
  while IFS= read -r line || [ -n "$line" ]; do
    line="${line%%#*}"
    case "$line" in *:*) ;; *) continue ;; esac
    name="${line%%:*}"
    needs["${name%% *}"]="${line#*:}"
  done <"$1/crates.txt"
}

# Puts a crate into `order`, after those that it stands on. Names that crates.txt lacks are the kit's.
order=()
declare -A is_placed=()
place_crate() {
  local below
  if [ -n "${is_placed[$1]-}" ] || [ -z "${needs[$1]+set}" ]; then
    return 0
  fi
  is_placed[$1]=yes
  for below in ${needs[$1]}; do
    place_crate "$below"
  done
  order+=("$1")
}

# Prints how many checks run side by side: RT_JOBS, if it is set, else one a processor, with 4 GB of free memory for each. A check of one crate takes 3.5 GB at
# most. By its lines the kit reckons up to 55 GB, and would run one alone.
lanes() {
  local fitting
  fitting="$(awk '/^MemAvailable:/ { print int($2 / 4000000) }' /proc/meminfo)"
  echo "${RT_JOBS:-$((fitting < 1 ? 1 : fitting < $(nproc) ? fitting : $(nproc)))}"
}

# Whether the file $2 is there, and no source of these crates of the repository at the folder $1 is newer.
is_current() {
  local root="$1" built="$2" crate part newer
  local sources=("$root/crates.txt")
  shift 2
  [ -e "$built" ] || return 1
  for crate; do
    for part in src specs proofs; do
      if [ -e "$root/crates/$crate/$part" ]; then
        sources+=("$root/crates/$crate/$part")
      fi
    done
  done
  newer="$(find "${sources[@]}" -newer "$built" -print -quit)" || return 1
  [ -z "$newer" ]
}
