#!/bin/sh
# Installs the program, its man page, its completions, the client and the unit under PREFIX, /usr/local where it isn't given. DESTDIR, where it is
# given, stands before each path: `DESTDIR=/tmp/package PREFIX=/usr contrib/install.sh`. Nothing is installed where something is missing.
set -eu

refuse() {
  echo "install.sh: $1" >&2
  exit 1
}

[ $# -eq 0 ] || refuse 'it takes no words; PREFIX and DESTDIR are read from the environment'
top=$(cd "$(dirname "$0")/.." && pwd)
prefix=${PREFIX:-/usr/local}
into=${DESTDIR:-}$prefix
program=$top/crates/tokyo/out/tokyo

case $prefix in
  /*) ;;
  *) refuse "PREFIX is $prefix, and has to begin with /" ;;
esac
case $prefix in
  *[!A-Za-z0-9/._-]*) refuse "PREFIX is $prefix, and may have letters, digits and / . _ - alone" ;;
esac
for tool in install sed ln mktemp; do
  command -v "$tool" >/dev/null || refuse "there is no $tool"
done
[ -x "$program" ] || refuse "there is no program $program: the gate builds it (bash .ci/run)"
for file in tokyo.1 tokyo.bash _tokyo tokyo.py tokyo.service; do
  [ -r "$top/contrib/$file" ] || refuse "there is no $top/contrib/$file"
done
mkdir -p "$into" 2>/dev/null || refuse "$into can't be made"
[ -w "$into" ] || refuse "$into can't be written to"

put() { # MODE FILE PLACE
  install -d "$into/$(dirname "$3")"
  install -m "$1" "$2" "$into/$3"
  echo "$into/$3"
}

put 755 "$program" bin/tokyo
put 644 "$top/contrib/tokyo.1" share/man/man1/tokyo.1
put 644 "$top/contrib/tokyo.bash" share/bash-completion/completions/tokyo
put 644 "$top/contrib/_tokyo" share/zsh/site-functions/_tokyo
put 755 "$top/contrib/tokyo.py" share/tokyo/tokyo.py
ln -sf ../share/tokyo/tokyo.py "$into/bin/tokyo.py"
echo "$into/bin/tokyo.py"

unit=$(mktemp)
trap 'rm -f "$unit"' EXIT
sed "s|/usr/local/bin/|${prefix%/}/bin/|" "$top/contrib/tokyo.service" >"$unit"
put 644 "$unit" lib/systemd/system/tokyo.service
