# How Rust is built and run for a processor, for every script that needs it: source this file. For this machine's own, `cargo` from PATH does
# all; for the other, a cargo whose compiler has that processor's library builds, from PATH or Debian's, and an emulator runs what it builds.
#
# Takes: PROCESSOR   x86_64 or aarch64, by default this machine's
# Gives: TARGET      its Rust name
#        RUNNER      what runs a program built for it (empty where it runs as it is)
#        run_cargo COMMAND ARGUMENTS...   cargo with these; programs end in target/$TARGET/{debug,release} of their crate
#        what needs.sh gives
. "$(dirname "$(readlink -f "${BASH_SOURCE[0]}")")/needs.sh"

PROCESSOR=${PROCESSOR:-$MACHINE}
TARGET=$PROCESSOR-unknown-linux-gnu
RUNNER=
case $(uname -s)-$PROCESSOR in
  Linux-x86_64 | Linux-aarch64) ;;
  *) echo "$0: the library is for Linux on x86_64 and aarch64, and this is $(uname -s) and $PROCESSOR" >&2; exit 1 ;;
esac

# Where cargo stands whose compiler has the library for TARGET, and nothing where there is none.
cargo_folder() {
  local folder
  for folder in "$(dirname "$(command -v rustc || echo /usr/bin/rustc)")" /usr/bin; do
    if [ -d "$("$folder/rustc" --print target-libdir --target "$TARGET" 2>/dev/null)" ] && [ -x "$folder/cargo" ]; then
      echo "$folder"
      return
    fi
  done
}

# The Debian packages that the other way needs and this machine lacks.
missing_packages() {
  local prefix=$PROCESSOR-linux-gnu debian=arm64
  [ "$PROCESSOR" = aarch64 ] || debian=amd64
  [ -n "$CARGO_FOLDER" ] || echo "cargo rustc libstd-rust-dev:$debian"
  command -v "$prefix-gcc" >/dev/null || echo "gcc-${prefix/_/-}"
  [ -e "/usr/$prefix/lib/libc.so" ] || echo libc6-dev-$debian-cross
  command -v "qemu-$PROCESSOR" >/dev/null || echo qemu-user
}

if [ "$PROCESSOR" = "$MACHINE" ]; then
  need cargo "it builds Rust, 1.63 or newer (https://rustup.rs, or Debian's cargo and rustc)"
  need cc "it links what cargo builds (Debian: gcc and libc6-dev)"
  run_cargo() { cargo "$1" --target "$TARGET" "${@:2}"; }
else
  RUNNER="qemu-$PROCESSOR -L /usr/$PROCESSOR-linux-gnu"
  CARGO_FOLDER=$(cargo_folder)
  lacking="$(missing_packages | tr '\n' ' ')"
  if [ -n "$lacking" ]; then
    echo "$0: this machine is not $PROCESSOR, and these Debian packages are missing to build for it and emulate it: $lacking" >&2
    exit 1
  fi
  run_cargo() {
    local name=CARGO_TARGET_${PROCESSOR^^}_UNKNOWN_LINUX_GNU
    env RUSTC="$CARGO_FOLDER/rustc" RUSTDOC="$CARGO_FOLDER/rustdoc" "${name}_LINKER=$PROCESSOR-linux-gnu-gcc" "${name}_RUNNER=$RUNNER" \
      "$CARGO_FOLDER/cargo" "$1" --target "$TARGET" "${@:2}"
  }
fi
