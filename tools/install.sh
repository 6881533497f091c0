#!/bin/sh
# Installs an unpacked release below /usr/local, or the folder given: ./install.sh [PREFIX]
# Processors of level x86-64-v3 get the programs of libexec/, which are faster there. All others get those of bin/.
# It needs GNU tar, which keeps folders and links to folders that are there. BusyBox's tar has no such options.
set -eu; umask 022; from=$(dirname "$0") to=${1:-/usr/local} fast=libexec/x86-64-v3
put='tar -xf - --no-same-owner --no-overwrite-dir --keep-directory-symlink'
for flag in avx2 bmi1 bmi2 f16c fma abm movbe; do grep -qsw "$flag" /proc/cpuinfo || fast=; done
case $to in /*) ;; *) to=$PWD/$to ;; esac
case $to in *[[:space:]\'\"\\%\$\&\|]*)
    printf '%s\n' "install.sh: $to: the systemd units need a folder without blanks, quotes, \\, %, \$, & and |" >&2
    exit 2 ;;
esac
mkdir -p "$to"; to=$(cd "$to" && pwd); (cd "$from"; tar -cf - $(ls -d bin include lib share 2> /dev/null)) | $put -C "$to"
[ -z "$fast" ] || tar -C "$from/$fast" -cf - . | $put -C "$to/bin"
sed -i "s|/usr/local/bin/|$to/bin/|" "$to"/lib/systemd/system/scand*.service
