# shellcheck shell=bash
# Read by the scripts of this folder: where things are, what this machine has, and the archive that is linked.
#
# Settings, each with its default:
#   GP_LIB        the archive with our C entries   target/archive/x86_64/libgillpocketry.a, made by tools/archive
#   RATTLE_HOME   the folder of the Rattle kit     the one that the command rt is of
# shellcheck disable=SC2034  # the scripts read names that are set here

set -euo pipefail

root=$(cd "$(dirname "${BASH_SOURCE[0]}")/.." && pwd)
machine=$(uname -m)

# Status 2: what was asked for could not be tried. Status 1 is kept for a refusal or a difference.
fail() {
  echo "$(basename "$0"): $*" >&2
  exit 2
}

need() { # COMMAND WHERE-FROM
  command -v "$1" >/dev/null || fail "$1 is missing: $2"
}

# With -h or --help as the first word: prints the comment at the head of the script and ends.
answer_help() { # WORDS..
  case ${1:-} in
    -h | --help) ;;
    *) return 0 ;;
  esac
  sed -n -e '1d' -e '/^#/!q' -e '/^# shellcheck/d' -e 's/^# \{0,1\}//p' "$0" || exit 2
  exit 0
}

# Sets seed and scale as the words of the command say, each 1 where they do not. Bad words are refused, before anything is proved or built.
read_seed_and_scale() { # [--seed N] [--scale N]
  seed=1 scale=1
  while [ $# -gt 1 ]; do
    case $1 in
      --seed) seed=$2 ;;
      --scale) scale=$2 ;;
      *) break ;;
    esac
    shift 2
  done
  if [ $# != 0 ] || ! [[ $seed =~ ^[0-9]{1,19}$ && $scale =~ ^[1-9][0-9]{0,5}$ ]]; then
    fail "usage: tools/$(basename "$0") [--seed N] [--scale N] [--archive x86_64|aarch64]   (a seed has at most 19 digits, a scale is 1 to 999999)"
  fi
}

# ---- the kit

# Whether a kit can be had here.
has_kit() {
  [ "$machine" = x86_64 ] && { [ -n "${RATTLE_HOME:-}" ] || command -v rt >/dev/null; }
}

# Sets kit_rt, the command of the kit, in full: it is run in the folder of a crate.
find_kit() { # [WAY-OUT]
  [ "$machine" = x86_64 ] || fail "this machine is $machine, and the Rattle kit is for x86_64 alone${1:+: $1}"
  if [ -n "${RATTLE_HOME:-}" ]; then
    kit_rt=$(realpath "$RATTLE_HOME/bin/rt") || fail "there is no Rattle kit in $RATTLE_HOME (setting RATTLE_HOME)"
  else
    need rt "it is the command of the Rattle kit (README.md says which kit)"
    kit_rt=$(realpath "$(command -v rt)")
  fi
  "$kit_rt" doc >/dev/null || fail "the Rattle kit does not start: '$kit_rt doc' failed"
}

# ---- proving

# Reads what rt says, and shows each crate once it is proved, with the seconds that it took. Of those that have not changed rt says nothing.
show_proved() {
  local line name='' last=$SECONDS
  while IFS= read -r line; do
    if [[ $line =~ ^crate\ ([A-Za-z0-9_]+):\ modules\  ]]; then
      name=${BASH_REMATCH[1]}
    elif [[ -n $name && $line = logic=proved\ * ]]; then
      echo "proved $name, $((SECONDS - last)) s" >&2
      name='' last=$SECONDS
    fi
  done
}

# Runs rt in the folder of CRATE, one such run at a time, and shows each crate as it is proved. LOG keeps what rt says; it is shown where rt
# fails, and the status is then 1. `rt run` ends with the status of the program, which does not count here.
prove() { # CRATE LOG RT-WORDS..
  local folder=$root/crates/$1 log=$2
  shift 2
  (
    # rt itself lets a second run in the same folders wait, but says nothing of it.
    flock -w 5 9 || { echo "$(basename "$0"): waiting for another run that proves here" >&2 && flock 9; }
    (cd "$folder" && "$kit_rt" "$@") </dev/null 2>&1 | tee "$log" | show_proved || grep -q '^rt: running out/' "$log" ||
      { cat "$log" >&2 && exit 1; }
  ) 9>"$root/target/lock"
}

# Proves and builds a program, which is then crates/CRATE/out/CRATE. rt can only build it and run it, so it runs with a word that it refuses.
prove_program() { # CRATE LOG
  prove "$1" "$2" run -- --build-only
}

# ---- the archive

# Prints the one name by which the scripts know a machine; status 1 where it is none of ours.
machine_named() { # WORD
  case $1 in
    x86_64 | x86-64) echo x86_64 ;;
    aarch64 | arm64) echo aarch64 ;;
    *) return 1 ;;
  esac
}

# Prints the bytes of FILE from FROM on, in hexadecimal with no blanks.
hex_at() { # FILE FROM COUNT
  od -An -v -tx1 -j "$2" -N "$3" "$1" 2>/dev/null | tr -d ' \n'
}

# Prints the machine of an archive: that of its first object, which its ELF header names in bytes 18 and 19.
machine_of_archive() { # FILE
  local at=8 size
  [ "$(hex_at "$1" 0 8)" = 213c617263683e0a ] || return 1 # !<arch> and the end of a line
  # The members before it have names that begin with a slash: the archive's own tables.
  while [ "$(hex_at "$1" $at 1)" = 2f ]; do
    size=$(dd if="$1" bs=1 skip=$((at + 48)) count=10 status=none | tr -d ' ')
    [[ $size =~ ^[0-9]+$ ]] || return 1
    at=$((at + 60 + size + size % 2))
  done
  at=$((at + 60))
  [ "$(hex_at "$1" $at 4)" = 7f454c46 ] || return 1
  case $(hex_at "$1" $((at + 18)) 2) in
    3e00) echo x86_64 ;;
    b700) echo aarch64 ;;
    *) return 1 ;;
  esac
}

# Takes --archive out of the words of the command. Sets archive to the machine that it names, or to nothing, and words to the others.
take_archive() { # WORDS..
  archive='' words=()
  while [ $# -gt 0 ]; do
    if [ "$1" = --archive ]; then
      archive=$(machine_named "${2:-}") || fail "--archive is followed by x86_64 or aarch64"
      shift
    else
      words+=("$1")
    fi
    shift
  done
}

# Sets lib_machine, the machine of the archive that is to be linked, and makes nothing: that of GP_LIB where it is given, otherwise the one
# named, otherwise x86_64, the shipped one. What is missing is said here, so that it is said before anything is proved.
choose_library() { # [x86_64|aarch64]
  if [ -z "${GP_LIB:-}" ]; then
    lib_machine=$(machine_named "${1:-x86_64}") || fail "there is no archive for '$1': it is made for x86_64 and aarch64"
    find_kit "set GP_LIB to an archive that was made there"
    return
  fi
  [ -f "$GP_LIB" ] || fail "there is no archive $GP_LIB (setting GP_LIB)"
  lib_machine=$(machine_of_archive "$GP_LIB") || fail "$GP_LIB is no archive of objects for x86-64 or aarch64 (setting GP_LIB)"
  [ "${1:-$lib_machine}" = "$lib_machine" ] || fail "an archive for $1 is asked for, but $GP_LIB is for $lib_machine (setting GP_LIB)"
  GP_LIB=$(realpath "$GP_LIB")
  export GP_LIB
}

# Sets GP_LIB to the archive that is to be linked, and lib_machine to its machine. The default one is proved and made anew, so that it is
# never an old one.
find_our_library() { # [x86_64|aarch64]
  choose_library "$@"
  [ -z "${GP_LIB:-}" ] || return 0
  "$root/tools/archive" "$lib_machine" >&2 || fail "tools/archive $lib_machine did not succeed"
  GP_LIB=$root/target/archive/$lib_machine/libgillpocketry.a
  choose_library
}

# ---- programs that link it

# Ends with status 2 where something is missing to run the archive for the other machine, and names the way that needs none of it.
cannot_cross() { # MACHINE WHAT WHERE-FROM
  fail "to run the archive for $1 on this $machine machine, $2 is missing: $3. Or without it: tools/$(basename "$0") --archive $machine"
}

# Sets run_words, the words before a program that is linked statically for MACHINE, so that it runs here: for the other machine they are
# Debian's emulator.
run_for() { # MACHINE
  run_words=()
  [ "$1" != "$machine" ] || return 0
  command -v "qemu-$1-static" >/dev/null || cannot_cross "$1" "qemu-$1-static" "Debian 12: apt-get install -y qemu-user-static"
  run_words=("qemu-$1-static")
}

# Debian's libm.a for x86-64 is a line of text that names its parts, and names them where they lie on an x86-64 machine. Where that of GCC is
# such a line, this writes FOLDER/libm.a, which names them where they lie here.
write_static_libm() { # GCC FOLDER
  local libm part listed parts=''
  libm=$("$1" -print-file-name=libm.a)
  [ -f "$libm" ] || fail "$1 has no C library to link statically (Debian 12: libc6-dev-amd64-cross for x86-64, libc6-dev-arm64-cross for aarch64)"
  mkdir -p "$2"
  rm -f "$2/libm.a"
  ! LC_ALL=C grep -q '^!<arch>' "$libm" || return 0
  read -ra listed < <(sed -n 's/^GROUP ( \(.*\) )$/\1/p' "$libm") || fail "$libm does not name its parts as expected"
  for part in "${listed[@]}"; do
    parts+=" $("$1" -print-file-name="$(basename "$part")")"
  done
  echo "GROUP ($parts )" >"$2/libm.a"
}
