#!/bin/sh
# Fetches the packaged libfec, libosmocore and VOLK (Debian, amd64) and what they are linked with into target/compare/peer, without installing them: compare/speed.sh then runs them too, as context.
set -eu
cd "$(dirname "$0")/.."
mkdir -p target/compare/peer
cd target/compare/peer
apt-get download libfec-dev libosmocore19 libtalloc2 libsctp1 libmnl0 liburing2 libvolk2.5 liborc-0.4-0
for file in *.deb; do dpkg -x "$file" .; done
