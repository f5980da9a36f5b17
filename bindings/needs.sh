# What a script needs, said before anything takes time: source this file, before going to another folder.
#
# Takes: WERMAZUL_ARCHIVE            an archive of the user's own, in place of the one that bindings/archive makes
# Gives: MACHINE                     this machine's processor
#        need COMMAND WHAT           ends the script where the command is not on the path, and says what it is
#        use_archive [PROCESSOR]     sets and exports WERMAZUL_ARCHIVE where the user named none
MACHINE=$(uname -m)

need() {
  if ! command -v "$1" >/dev/null; then
    echo "$0: $1 is not on the path: $2" >&2
    exit 1
  fi
}

use_archive() {
  if [ -z "${WERMAZUL_ARCHIVE:-}" ]; then
    WERMAZUL_ARCHIVE=$("$(dirname "$(readlink -f "${BASH_SOURCE[0]}")")/archive" "$@")
    export WERMAZUL_ARCHIVE
  fi
}

if [ -n "${WERMAZUL_ARCHIVE:-}" ]; then
  if [ ! -f "$WERMAZUL_ARCHIVE" ]; then
    echo "$0: WERMAZUL_ARCHIVE names $WERMAZUL_ARCHIVE, and there is no such file" >&2
    exit 1
  fi
  WERMAZUL_ARCHIVE=$(readlink -f "$WERMAZUL_ARCHIVE")
  export WERMAZUL_ARCHIVE
fi
