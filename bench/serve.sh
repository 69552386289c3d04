#!/usr/bin/env bash
# Measures kdhcp, Kea and coredhcp under the same load, DISCOVER to ACK through a relay: bench/serve.sh [WORK]. WORK is one of:
#
#   levels     the default: kdhcp and Kea, three rounds up to 250,000 leases and 250 class tests; also makes serve.svg
#   million    kdhcp and Kea, one round with 1,000,000 leases
#   durable    kdhcp with a store and coredhcp, which also syncs, three rounds up to 250,000 leases
#   batches    all three, three rounds with 1 to 64 clients at a time; also makes batches.svg
#   soak       only kdhcp: renewals and garbage for ten minutes (SECONDS_OF_SOAK); `soak-file` is the same with a store
#
# It prints tables in Markdown; the pictures go to docs/benchmarks. It needs root. If Kea or SQLite's library is missing, it
# installs them with apt. It unpacks coredhcp without installing it, because the package would start it. It runs in a network
# namespace of its own, and writes to a folder on disk below /var/tmp. Nothing else should run on the machine. The program is
# $KDHCP if it is set, otherwise crates/kdhcp/out/kdhcp.
set -euo pipefail
here=$(cd "$(dirname "$0")" && pwd)
work=${1:-levels}
kdhcp=$(realpath "${KDHCP:-$here/../crates/kdhcp/out/kdhcp}")
[ "$work" = durable ] || command -v kea-dhcp4 >/dev/null || apt-get install -y --no-install-recommends kea-dhcp4-server >&2
[ -e /usr/include/sqlite3.h ] || apt-get install -y --no-install-recommends libsqlite3-dev >&2
room=$(mktemp -d /var/tmp/kdhcp-serve.XXXXXX)
trap 'rm -rf "$room"' EXIT
if { [ "$work" = durable ] || [ "$work" = batches ]; } && ! command -v coredhcp >/dev/null; then
    (cd "$room" && apt-get download coredhcp-server >&2 && dpkg-deb -x coredhcp-server_*.deb .)
    PATH=$room/usr/bin:$PATH
fi
cc -O2 -o "$room/kdload" "$here/kdload.c"
cc -O2 -o "$room/store" "$here/store.c" -lsqlite3
case $work in
levels) unshare --net python3 "$here/serve.py" "$room" "$kdhcp" "$here/../docs/benchmarks/serve.svg" ;;
batches) unshare --net python3 "$here/serve.py" "$room" "$kdhcp" batches "$here/../docs/benchmarks/batches.svg" ;;
million | durable) unshare --net python3 "$here/serve.py" "$room" "$kdhcp" "$work" ;;
soak) unshare --net python3 "$here/soak.py" "$room" "$kdhcp" "${SECONDS_OF_SOAK:-600}" ;;
soak-file) unshare --net python3 "$here/soak.py" "$room" "$kdhcp" "${SECONDS_OF_SOAK:-600}" --store ;;
*) echo "serve.sh: WORK must be levels, million, durable, batches, soak or soak-file, not $work" >&2; exit 2 ;;
esac
