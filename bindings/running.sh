# What run-feed and run-day do alike: source this file, with $usage set and in_words defined, which reads what the program prints and says it in
# words, and call `run_program NAME "$@"`. The program is made by bindings/program, for this machine's processor where that can be: the first time,
# and again when its sources have changed.
SHARED=$(readlink -f "${BASH_SOURCE[0]}")
SHARED=${SHARED%/*}

say() { echo "${0##*/}: $1" >&2; }

# Says what is wrong with the call.
misused() { say "$1"; echo "$usage" >&2; exit 2; }

# awk, line by line: mawk reads a pipe in blocks, unless it is told not to.
awk_lines() {
  case $(awk -W version </dev/null 2>&1) in
    mawk*) awk -W interactive "$@" ;;
    *) awk "$@" ;;
  esac
}

# Sets run, the words that run the program PROGRAM of this path.
runner() {
  local machine tools
  machine=$(uname -m)
  case $machine:$1 in
    x86_64:*/x86_64/* | aarch64:*/aarch64/*) run=("$1") ;;
    *:*/aarch64/*) run=(qemu-aarch64 "$1") ;;
    *)
      # the program for x86-64, elsewhere: an emulator, and the toolchain's C library
      command -v qemu-x86_64 >/dev/null || { say "the program is for x86-64, and there is no qemu-x86_64 to emulate it (Debian: qemu-user)"; exit 1; }
      command -v rt >/dev/null || { say "the program is for x86-64, and its C library comes with the Rattle toolchain (rt), which is not on the path"; exit 1; }
      tools=$(readlink -f "$(dirname "$(readlink -f "$(command -v rt)")")/../toolchain/lib")
      run=(qemu-x86_64 "$tools/ld-linux-x86-64.so.2" --library-path "$tools" "$1")
      ;;
  esac
}

# Ends the script where FILE, or standard input where none is named, is not there to be read, or standard output is closed. Another standard stream
# that is closed does not stay so: a pipe of this script would be opened in its place, and whoever reads there would wait for ever.
find_ends() {
  { true 3>&2; } || exec 2>/dev/null
  if ! { true 3<&0; } 2>/dev/null; then
    [ $# -eq 1 ] || { say "standard input is closed"; exit 1; }
    exec </dev/null
  fi
  if [ $# -eq 1 ]; then
    if [ ! -e "$1" ]; then say "$1: no such file"; exit 1; fi
    if [ -d "$1" ]; then say "$1: is a directory"; exit 1; fi
    if [ ! -r "$1" ]; then say "$1: no permission to read it"; exit 1; fi
  fi
  { true 3>&1; } 2>/dev/null || { say "standard output is closed"; exit 1; }
}

# Says how a program ended that said nothing.
say_end() {
  if [ "$1" -le 128 ]; then
    say "the program ended with status $1 and said nothing"
  else
    say "the program was ended by signal $(($1 - 128))"
  fi
}

# run_in_words yes|no [FILE]: runs what $run has, and ends the script. The program says on standard error what it could not read or write; its own
# status is 0 then too.
run_in_words() {
  local words=$1 status=0 worded=0 errors
  shift
  if [ $words = yes ]; then
    { errors=$("${run[@]}" "$@" 2>&1 1>&3 3>&- | cat) || status=$?; } 3> >(in_words)
    wait $! || worded=1
  else
    { errors=$("${run[@]}" "$@" 2>&1 1>&3 3>&-) || status=$?; } 3>&1
  fi
  # Where nobody reads any more what it prints, nobody need be told.
  if [ "$errors" = "write: Broken pipe" ] || [ $status -eq 141 ]; then
    exit 1
  fi
  if [ -n "$errors" ]; then
    say "$errors"
    exit 1
  fi
  if [ $status -ne 0 ]; then
    say_end $status
    exit 1
  fi
  exit $worded
}

run_program() {
  local name=$1 words=no version=no program run
  shift
  while [ $# -gt 0 ]; do
    case $1 in
      --words) words=yes ;;
      --help) echo "$usage"; exit 0 ;;
      --version) version=yes ;;
      --) shift; break ;;
      -?*) misused "no such option: $1" ;;
      *) break ;;
    esac
    shift
  done
  [ $# -le 1 ] || misused "one file at most"
  if [ $version = yes ]; then
    echo "wermazul $(sed -n 's/^version = "\(.*\)"/\1/p' "$SHARED/rust/Cargo.toml")"
    exit 0
  fi
  find_ends "$@"

  # WERMAZUL_PROCESSOR asks for the program of another processor than this machine's, for tests.
  program=$("$SHARED/program" "$name" ${WERMAZUL_PROCESSOR:+"$WERMAZUL_PROCESSOR"} </dev/null) || { say "there is no program to run"; exit 1; }
  runner "$program"
  run_in_words $words "$@"
}
