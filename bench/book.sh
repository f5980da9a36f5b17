#!/usr/bin/env bash
# Times the book of this library, by its Rust crate, beside the original and two plain Rust books, in one process: a million deltas, and
# questions to the book that results; and fills and lines beside that. Compares all answers first. Writes the tables of docs/FIGURES.md.
#   bench/book.sh [FOLDER]     FOLDER holds the published src; by default ../shared/docs/src beside the repository
#   RUNS=1 bench/book.sh       another number of runs than 5; each takes about a quarter of a minute
#   WERMAZUL_ARCHIVE=FILE bench/book.sh     another archive for this machine
# Needs: the Rattle toolchain, Rust 1.66 or newer, the published modules, and the crates rust_decimal 1.23.1 and thiserror 1.0.38 (Debian
# 12's packages librust-rust-decimal-dev and librust-thiserror-dev, else cargo fetches them).
set -euo pipefail
root=$(dirname "$(readlink -f "${BASH_SOURCE[0]}")")/..
WORK_NAME=bench_book
. "$root/oracle/prepare.sh"
[ -z "$RUNNER" ] || { echo "$0: a time under an emulator says nothing, so no other processor than this machine's" >&2; exit 1; }
prepare "${1:-$root/../shared/docs/src}"
use_archive
echo "This machine is $MACHINE, and so is the archive."
mkdir -p "$WORK/book"
put bench/book/Cargo.toml "$WORK/book/Cargo.toml"
rm -f "$WORK/book/Cargo.lock"
(cd "$WORK/book" && run_cargo build --release $OFFLINE --quiet)
program=$WORK/book/target/$TARGET/release/book

echo "$(rustc --version | cut -d' ' -f1,2), $(nproc) cores, load before the runs: $(cut -d' ' -f1-3 /proc/loadavg)"
rm -f "$WORK"/run.*
for run in $(seq "${RUNS:-5}"); do
  "$program" time >"$WORK/run.$run"
done
echo
"$program" table "$WORK"/run.*
