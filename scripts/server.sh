#!/usr/bin/env bash
# server.sh FOLDER [WORD ..]: starts the server with these words in FOLDER. Without --disk it serves the file berymohi.log there,
# which is made if it is not there. The program is the proved one if these files were proved, or else one without proofs.
set -eu
folder=$1
shift
cd "$(dirname "$0")/.."
. scripts/needs_rt.sh
server=$PWD/$(python3 scripts/gate unproved cg_server)
cd "$folder"
for word in "$@"; do
    case $word in
        --disk | --disk=* | --help | -h | --version | -V) exec "$server" "$@" ;;
    esac
done
if [ ! -e berymohi.log ]; then
    # The file gets its name once it is whole: a log that was cut short by a kill is refused.
    "$server" --disk berymohi.log.new --overwrite --connections 0 > /dev/null
    mv berymohi.log.new berymohi.log
    sync .
fi
exec "$server" --disk berymohi.log "$@"
