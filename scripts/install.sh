#!/usr/bin/env bash
# install.sh PREFIX: proves and builds both programs, and installs them with their manual pages, the documents that these name,
# the client and the unit file for systemd. With DESTDIR set, below that folder.
set -eu
cd "$(dirname "$0")/.."
. scripts/needs_rt.sh
case $1 in
    /*) prefix=${DESTDIR:-}${1%/} ;;
    *) echo "install.sh: the prefix has to be an absolute path" >&2; exit 2 ;;
esac
python3 scripts/gate build cg_sim cg_server
for program in cg_sim cg_server; do
    install -D -m 755 "crates/$program/out/$program" "$prefix/bin/$program"
    install -D -m 644 "docs/man/$program.1" "$prefix/share/man/man1/$program.1"
done
for page in PROTOCOL OPERATING FORMATS; do
    install -D -m 644 "docs/$page.md" "$prefix/share/doc/berymohi/$page.md"
done
install -D -m 755 examples/client.py "$prefix/share/doc/berymohi/client.py"
mkdir -p "$prefix/lib/systemd/system"
sed "s|/usr/local/bin|${1%/}/bin|g" examples/cg_server.service > "$prefix/lib/systemd/system/cg_server.service"
echo "installed cg_sim and cg_server below $prefix"
