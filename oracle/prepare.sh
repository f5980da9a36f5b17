# For oracle/run, oracle/mutants, oracle/replay and bench/book.sh: source this file.
#
# Gives: prepare FOLDER   goes to the repository's root and lays out target/oracle: the published modules of FOLDER, unchanged, beside
#                         stand-ins for the two that were not supplied, and the crate that compares
#        build            builds it, and the library first; the program is $PROGRAM
#        oracle ARGUMENTS...   runs it
# Takes: WORK_NAME, another folder of target to work in

ROOT=$(cd "$(dirname "$(readlink -f "${BASH_SOURCE[0]}")")/.." && pwd)
. "$ROOT/bindings/rust-env.sh"
WORK=$ROOT/target/${WORK_NAME:-oracle}
PROGRAM=$WORK/target/$TARGET/release/oracle
PUBLISHED="error.rs orderbook/mod.rs position/mod.rs"
# Copies a file where it differs, so that what is built stays built.
put() {
  cmp -s "$1" "$2" || cp "$1" "$2"
}

# Copies the published modules and compares each copy with its source.
copy_published() {
  for module in $PUBLISHED; do
    if [ ! -e "$1/src/$module" ]; then
      echo "The published modules are not in $1: src/$module is missing." >&2
      echo "Give the folder that holds their src as the argument (by default ../shared/docs/src beside the repository)." >&2
      exit 1
    fi
    put "$1/src/$module" "$WORK/original/src/$module"
    cmp "$1/src/$module" "$WORK/original/src/$module"
  done
}

# Where Debian's sources of the two crates are installed, they are used, and no network.
use_debian_sources() {
  local registry=/usr/share/cargo/registry
  OFFLINE=
  if [ -d $registry/rust_decimal-1.23.1 ] && [ -d $registry/thiserror-1.0.38 ]; then
    printf '%s\n' '[source.crates-io]' 'replace-with = "debian"' '[source.debian]' "directory = \"$registry\"" >"$WORK/.cargo/config.toml"
    OFFLINE=--offline
  else
    echo "rust_decimal and thiserror are fetched; Debian 12 has them as librust-rust-decimal-dev and librust-thiserror-dev." >&2
  fi
}

prepare() {
  local stand_ins=oracle/stand_ins folder
  folder=$(readlink -m "$1")
  cd "$ROOT"
  mkdir -p "$WORK/original/src/orderbook" "$WORK/original/src/position" "$WORK/original_checked" "$WORK/.cargo"
  copy_published "$folder"
  put $stand_ins/lib.rs "$WORK/original/src/lib.rs"
  put $stand_ins/types.rs "$WORK/original/src/types.rs"
  put $stand_ins/kelly.rs "$WORK/original/src/position/kelly.rs"
  put $stand_ins/Cargo.toml "$WORK/original/Cargo.toml"
  # The same sources a second time, to be built with overflow checks.
  sed 's/name = "original"/name = "original_checked"/' $stand_ins/Cargo.toml >"$WORK/original_checked/Cargo.toml"
  printf '\n[lib]\npath = "../original/src/lib.rs"\n' >>"$WORK/original_checked/Cargo.toml"
  put oracle/Cargo.toml "$WORK/Cargo.toml"
  rm -f "$WORK/Cargo.lock" # another cargo may have written it in a form that this one cannot read; versions are pinned in Cargo.toml
  use_debian_sources
}

build() {
  use_archive "$PROCESSOR"
  (cd "$WORK" && run_cargo build --release $OFFLINE --quiet)
}

oracle() {
  $RUNNER "$PROGRAM" "$@"
}
