# A small root of Debian for a chroot: what tests/suites/bare and tests/suites/package try in.
# shellcheck shell=bash

# A folder with the tools of Debian's base: bash, coreutils, findutils, grep and sed, with their libraries.
build_root() {
  local tool path
  mkdir -p "$1"/{usr/bin,proc,dev,tmp,copy} && ln -s usr/bin "$1/bin" && touch "$1/dev/null" "$1/dev/full" || return 1
  ln -s /proc/self/fd "$1/dev/fd"
  for tool in bash $(dpkg -L coreutils findutils grep sed | grep -x '/\(usr/\)\?bin/[^/]*'); do
    cp -a --dereference "$(command -v "$tool")" "$1/usr/bin/" || return 1
  done
  ln -s bash "$1/usr/bin/sh"
  ldd "$1"/usr/bin/* 2>/dev/null | grep -o '/[^ ]*\.so[^ ]*' | sort -u | while read -r path; do
    cp --dereference --parents "$path" "$1"
  done
  # (the C library's parts that a program may need besides)
  cp --dereference --parents /lib/x86_64-linux-gnu/libm.so.6 /lib/x86_64-linux-gnu/libgcc_s.so.1 "$1"
}

# Mounts what programs in it need.
mount_root() {
  mount -t proc proc "$1/proc" && mount --bind /dev/null "$1/dev/null" && mount --bind /dev/full "$1/dev/full"
}

unmount_root() {
  umount "$1"/{dev/full,dev/null,proc} 2>/dev/null
}

# Copies what git tracks to a new folder.
copy_checkout() {
  mkdir "$1" && git ls-files -coz --exclude-standard | xargs -0 cp -a --parents -t "$1"
}
