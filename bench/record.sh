#!/usr/bin/env bash
# Times the test whether a record is a book, which comes before every answer, beside the same test in plain Rust, in one process: about 90
# levels a side, the best of 1,000 short rounds as a range over the runs. Compares the answers on good and on spoilt records first.
#   bash bench/record.sh
#   RUNS=1 bash bench/record.sh       another number of runs than 5; each takes about a second
# Needs rustc 1.66 or newer, and the Rattle toolchain or an archive that WERMAZUL_ARCHIVE names.
set -euo pipefail
root=$(dirname "$(readlink -f "${BASH_SOURCE[0]}")")/..
. "$root/bindings/needs.sh"
need rustc "it is the Rust compiler, 1.66 or newer"
use_archive
cd "$root"
work=$PWD/target/bench/record
mkdir -p "$work"
cp "$WERMAZUL_ARCHIVE" "$work/libexports.a"
plain=()
[ "$MACHINE" != x86_64 ] || plain=(-C target-cpu=x86-64)
rustc --edition 2021 -C opt-level=3 -C codegen-units=1 "${plain[@]}" -L "native=$work" -l static=exports -o "$work/record" bench/record/main.rs
"$work/record" compare
echo "$(rustc --version | cut -d' ' -f1,2), $(nproc) cores, load before the runs: $(cut -d' ' -f1-3 /proc/loadavg)"
for run in $(seq "${RUNS:-5}"); do
  "$work/record" time >"$work/run"
  paste -sd' ' "$work/run"
done >"$work/runs"
# Each line has a name and its nanoseconds, the proved test's first.
awk '
  {
    for (i = 1; i < NF; i += 2) {
      t = $(i + 1); r = $2 / t; name[i] = $i; names = NF
      if (NR == 1 || t < low[i]) low[i] = t
      if (NR == 1 || t > high[i]) high[i] = t
      if (NR == 1 || r < least[i]) least[i] = r
      if (NR == 1 || r > most[i]) most[i] = r
    }
  }
  END {
    said["proved"] = "proved: the archive, rows and counts lent by a call of C"
    said["by_rows"] = "plain Rust, the same loops, the same call of C"
    said["tuned"] = "plain Rust, the same loops, a record by reference"
    said["written"] = "plain Rust, iterators that stop at a fault, a record by reference"
    print "| the test | ns a call | proved over this one |\n|---|---|---|"
    for (i = 1; i < names; i += 2) printf "| %s | %.1f to %.1f | %.2f to %.2f |\n", said[name[i]], low[i], high[i], least[i], most[i]
  }' "$work/runs"
