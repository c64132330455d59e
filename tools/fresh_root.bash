# Installs both Debian packages in the folder `system`: into a fresh Debian that debootstrap makes
# there, by the README's own line, or by dpkg alone into an empty root. For tools/try_release, which
# sources it: `here`, `room`, `folder`, `version`, `package`, `command_package`, `wheel`, `check`,
# `skip` and the rest are its own.
readonly SUITE=bookworm
system="$room/system"

# Runs a line of bash in the fresh Debian, in the folder with the release there. `sudo` is nothing
# for root.
inside() {
  chroot "$system" /usr/bin/env -i HOME=/root LANG=C.UTF-8 COLUMNS=100 DEBIAN_FRONTEND=noninteractive PATH=/usr/local/sbin:/usr/local/bin:/usr/sbin:/usr/bin:/sbin:/bin \
    bash -c "sudo() { \"\$@\"; }; cd /root/release && $1"
}

# Makes a fresh Debian, and puts the release there. Fails where there can be none.
make_fresh_root() {
  [ "$(id -u)" = 0 ] && has_tool debootstrap && timeout 1200 debootstrap --variant=minbase "$SUITE" "$system" >"$room/log" 2>&1 || return 1
  mkdir "$system/root/release"
  cp -- "$folder"/* "$system/root/release/"
  printf 'APT::Get::Assume-Yes "true";\nAPT::Install-Recommends "false";\nquiet "1";\n' >"$system/etc/apt/apt.conf.d/90trial"
}

# Makes an empty root, in which dpkg installs packages without what they need.
make_empty_root() {
  rm -rf -- "$system"
  mkdir -p "$system"/var/lib/dpkg/{info,updates}
  touch "$system"/var/lib/dpkg/{status,available}
  if [ "$(id -u)" = 0 ]; then
    check 'the packages are installed' quietly dpkg --root="$system" --force-depends --force-script-chrootless -i "$folder/$package" "$folder/$command_package"
    check 'their files are whole' is "$(dpkg --root="$system" --verify gregorio-canonical; dpkg --root="$system" --verify gregorio-chant)" ''
  else
    check 'the package is unpacked' dpkg-deb -x "$folder/$package" "$system"
    check 'the package of the command is unpacked' dpkg-deb -x "$folder/$command_package" "$system"
  fi
}

# Tries what only a whole Debian has: the README's line, and its picture.
try_fresh_root() {
  check 'a fresh Debian: the line to install' quietly inside "$(recipe README.md install-debian)"
  check 'a fresh Debian: the picture of the README' cmp <(picture_shown) <(inside "cd /usr/share/doc/gregorio-canonical && $(picture_line)")
  check 'a fresh Debian: of what it was built' is "$(inside 'gregorio-chant version')" \
    "$(printf '%s\n' "gregorio-chant $version" "library $version" && cat -- "$here/crates/gregorio_c/out/c/BUILD")"
  check 'a fresh Debian: the files are whole' is "$(inside 'dpkg --verify gregorio-canonical; dpkg --verify gregorio-chant')" ''
  check 'a fresh Debian: a score is formatted' is "$(inside 'cp /usr/share/doc/gregorio-canonical/examples/kyrie.gabc /tmp/k.gabc && gregorio-chant format --quiet /tmp/k.gabc; echo $?')" 0
  check 'a fresh Debian: a folder with a .gitignore' is "$(inside 'cd /tmp && echo "k*" >.gitignore && gregorio-chant check .; rm .gitignore' 2>&1)" '0 files: nothing found'
  check 'a fresh Debian: a server that its editor leaves' is "$(inside 'gregorio-chant server </dev/null; echo $?' 2>&1)" 1
}

# Removes both packages, and tries the wheel by the README's lines. There is no package index, so
# pip finds what it needs among Debian's packages.
leave_fresh_root() {
  check 'a fresh Debian: the packages are removed' quietly inside 'apt-get purge gregorio-canonical gregorio-chant'
  check 'a fresh Debian: nothing of them is left' is "$(cd -- "$system" && find usr etc var/lib/dpkg/info -name '*gregorio*')" ''
  check 'a fresh Debian: an environment of Python' quietly inside 'apt-get install python3-venv'
  check 'a fresh Debian: the lines for pip' quietly inside "$(install_recipe install-venv | sed 's/-m venv/& --system-site-packages/; s/pip install/& --no-index/')"
  cp -r -- "$here/examples" "$system/root/release/"
  check 'a fresh Debian: the picture of the README by the wheel' cmp <(picture_shown) <(inside "PATH=\$PWD/chant/bin:\$PATH; $(picture_line)")
}

# Tries the line for C of docs/INSTALL.md, with the words that pkg-config finds from where its file lies.
try_pkg_config() {
  if ! has_tool pkg-config || ! has_tool "${CC:-cc}"; then
    skip "$1: pkg-config: there is none, or no compiler"
    return
  fi
  cd -- "$room/empty" || exit 1
  recipe docs/LIBRARY.md compile-c >program.c
  check "$1: the line for C" quietly env PKG_CONFIG_PATH="$system/usr/lib/x86_64-linux-gnu/pkgconfig" bash -c "$(install_recipe use-c)"
  check "$1: what the program prints" is "$(LD_LIBRARY_PATH="$system/usr/lib/x86_64-linux-gnu" ./program | head -n 2 | tail -n 1)" 'Ky(f)ri(//)'
  check "$1: the version for pkg-config" is "$(PKG_CONFIG_PATH="$system/usr/lib/x86_64-linux-gnu/pkgconfig" pkg-config --modversion gregorio)" "$version"
}

# Tries the line for Rust of docs/INSTALL.md: the crate finds the library beside itself.
try_cargo_line() {
  if ! has_tool cargo; then
    skip "$1: the line for Rust: there is no cargo"
    return
  fi
  mkdir -p -- "$room/page/src"
  cd -- "$room/page" || exit 1
  printf '[package]\nname = "page"\nversion = "0.0.0"\nedition = "2021"\n' >Cargo.toml
  echo 'fn main() { println!("{}", gregorio_chant::version()) }' >src/main.rs
  check "$1: the line for Rust" quietly env CARGO_HOME="$room/cargo" CARGO_NET_OFFLINE=true bash -c "$(install_recipe use-rust | sed "s|/usr/share|$system&|")"
  check "$1: a program in Rust" is "$(env -u GREGORIO_LIBRARY CARGO_HOME="$room/cargo" CARGO_TARGET_DIR="$room/page/target" cargo run --offline --quiet 2>&1)" "$version"
}

if make_fresh_root; then
  leave_root() { leave_fresh_root; }
  check 'a fresh Debian: the lists of packages' quietly inside 'apt-get update'
  try_fresh_root
else
  skip 'a fresh Debian: no root, no debootstrap or no network'
  make_empty_root
  try_command_of 'the packages' "$system/usr/share/doc/gregorio-canonical" env PATH="$system/usr/bin:/usr/bin:/bin" \
    PYTHONPATH="$system/usr/lib/python3/dist-packages:$room/apt/files/usr/lib/python3/dist-packages"
  leave_root() {
    [ "$(id -u)" = 0 ] || return
    check 'the packages are removed' quietly dpkg --root="$system" --force-script-chrootless -P gregorio-chant gregorio-canonical
    check 'nothing of them is left' is "$(find "$system/usr" -name '*gregorio*')" ''
  }
fi
