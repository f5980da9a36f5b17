#!/usr/bin/env bash
# Times the reader of lines beside a plain C decoder, in one run. Needs a C compiler, and the Rattle toolchain or an archive that
# WERMAZUL_ARCHIVE names.
set -euo pipefail
root=$(dirname "$(readlink -f "${BASH_SOURCE[0]}")")/..
. "$root/bindings/needs.sh"
need cc "it is the C compiler (Debian: gcc and libc6-dev)"
use_archive
cd "$root"
mkdir -p target/bench
cc -Wall -Wextra -O2 -o target/bench/lines bench/lines.c "$WERMAZUL_ARCHIVE"
target/bench/lines
