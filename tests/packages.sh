#!/usr/bin/env bash
# Sees to Debian's packages that a test needs:  tests/packages.sh PACKAGE..
#
# Where this may be done (root, with apt-get), those that are missing are installed. Those that are missing then are told, a line each,
# and the status is 1.
set -u

is_there() { [ "$(dpkg-query --show --showformat '${db:Status-Status}' "$1" 2>/dev/null)" = installed ]; }

missing() {
  local package
  for package in "$@"; do
    is_there "$package" || echo "$package"
  done
}

# Another run of apt-get is waited for.
install() {
  DEBIAN_FRONTEND=noninteractive timeout 600 apt-get install --yes --no-install-recommends -o DPkg::Lock::Timeout=300 "$@" >/dev/null 2>&1
}

mapfile -t wanted < <(missing "$@")
if [ "${#wanted[@]}" -gt 0 ] && [ "$(id -u)" -eq 0 ] && command -v apt-get >/dev/null; then
  install "${wanted[@]}" || { timeout 120 apt-get update >/dev/null 2>&1; install "${wanted[@]}"; }
fi
mapfile -t wanted < <(missing "$@")
[ "${#wanted[@]}" -eq 0 ] || { printf '%s\n' "${wanted[@]}"; exit 1; }
