# How C is compiled and run for a processor, this machine's or another: source this file beside needs.sh.
#
# Gives: for_processor PROCESSOR   sets CC, what compiles and links C for it, and RUN, what runs a program (empty where it runs as it is); ends
#                                  the script where something is missing, and says what. A program for another processor is linked with its
#                                  C library in it, so that nothing is looked up where it runs.
for_processor() {
  local prefix=$1-linux-gnu debian=arm64
  CC=(cc) RUN=()
  if [ "$1" = "$MACHINE" ]; then
    need cc "it is the C compiler (Debian: gcc and libc6-dev)"
    return
  fi
  [ "$1" = aarch64 ] || debian=amd64
  CC=("$prefix-gcc" -static) RUN=("qemu-$1")
  need "$prefix-gcc" "it compiles C for $1 (Debian: gcc-${prefix/_/-} and libc6-dev-$debian-cross)"
  need "qemu-$1" "it runs programs for $1 here (Debian: qemu-user)"
}
