# The library and the programs for any processor, for bindings/archive and bindings/program: source this file. Rattle's compiler makes both for
# x86-64 and, asked by --target, for aarch64, from the same proved source, by its LLVM.
#
# Gives: ROOT, NATIVE               the repository, and the folder of all that is made here
#        KIT                        the Rattle toolchain's folder, empty where rt is not on the path
#        fresh NAME PROCESSOR       whether NAME was made for it by this toolchain from the sources as they are
#        lock                       waits until no other script makes anything here
#        by_rt NAME PROCESSOR WORDS..    runs rt with these words in the crate's folder, for that processor, and gives its status
#        failed_rt NAME PROCESSOR WORDS..    says that it failed, and where what it said is kept; ends the script
#        made NAME PROCESSOR        keeps that NAME was made of the sources as they were when by_rt began
ROOT=$(readlink -f "${BASH_SOURCE[0]}")
ROOT=${ROOT%/*/*}
. "$ROOT/bindings/needs.sh"
NATIVE=$ROOT/target/native
KIT=
if command -v rt >/dev/null; then
  KIT=$(readlink -f "$(command -v rt)")
  KIT=${KIT%/*/*}
fi

# The folders of the crate NAME and of those that it stands on.
folders_of() {
  awk -v name="$1" '
    function visit(crate,    on, count, i) {
      if (!(crate in stands) || seen[crate]++) return
      print crate
      count = split(stands[crate], on, " ")
      for (i = 1; i <= count; i++) visit(on[i])
    }
    { sub(/#.*/, "") }
    split($0, part, ":") == 2 { sub(/ .*/, "", part[1]); stands[part[1]] = part[2] }
    END { visit(name) }' "$ROOT/crates.txt"
}

# found NAME WORDS..: what find finds with these words in the sources of NAME.
found() {
  (cd "$ROOT/crates" && find ../crates.txt $(folders_of "$1") \( -name must-fail -o -name out \) -prune -o "${@:2}")
}

# The toolchain and what stands in the sources of NAME, as two lines.
sources_of() {
  identity
  (found "$1" -type f -print0 | sort -z | (cd "$ROOT/crates" && xargs -0 sha256sum) | sha256sum)
}

# What was made is fresh where nothing is newer than the last look, or else where the sources are still the same; then that was a look, which
# is kept where the user may write. Without rt nothing can be made again, and the toolchain is taken as it was.
fresh() {
  local kept=$NATIVE/$2/$1.kept
  [ -e "$kept/made" ] && [ -e "$kept/seen" ] || return 1
  [ -z "$KIT" ] || [ "$(head -n 1 "$kept/made")" = "$(identity)" ] || return 1
  [ -n "$(found "$1" -newer "$kept/seen" -print -quit)" ] || return 0
  touch "$kept/looked" 2>/dev/null || true
  [ "$(tail -n 1 "$kept/made")" = "$(sources_of "$1" | tail -n 1)" ] || return 1
  mv -f "$kept/looked" "$kept/seen" 2>/dev/null || true
}

# What `rt version` prints.
identity() {
  if [ -z "$KIT" ]; then echo none; elif [ -r "$KIT/KIT-ID" ]; then head -n 1 "$KIT/KIT-ID"; else rt version; fi
}

lock() {
  mkdir -p "$NATIVE"
  exec 9>"$NATIVE/lock"
  ! command -v flock >/dev/null || flock 9
}

# Of what rt says: which crate it is at, and what else it says itself.
progress() {
  sed -un -e 's/^rt: chose --jobs [0-9]* for \([a-z0-9_]*\)$/rt: \1/p; t' -e '/^rt: \(.*begins with what\|nothing has changed\|running \|rt check --fix-imports\)/d' -e '/^rt: /p'
}

by_rt() {
  local name=$1 processor=$2 kept=$NATIVE/$2/$1.kept target=()
  [ "$processor" = x86_64 ] || target=(--target "$processor-unknown-linux-gnu")
  shift 2
  need rt "it is the command of the Rattle toolchain, a compiler that also proves"
  mkdir -p "$kept"
  rm -f "$kept"/*
  touch "$kept/looked"
  sources_of "$name" >"$kept/begun"
  echo "Building by rt $* in crates/$name: proves what is not proved yet, which takes minutes the first time, and compiles." >&2
  (cd "$ROOT/crates/$name" && rt "$@" "${target[@]}" </dev/null 2>&1) | tee "$kept/log" | progress >&2
}

failed_rt() {
  echo "$0: rt ${*:3} in crates/$1 failed; what it said is in $NATIVE/$2/$1.kept/log" >&2
  exit 1
}

made() {
  local kept=$NATIVE/$2/$1.kept
  mv "$kept/looked" "$kept/seen"
  mv "$kept/begun" "$kept/made"
}
