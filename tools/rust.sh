# shellcheck shell=bash
# Read after settings.sh by the scripts that run programs of tools/oracle: how these are built, for this machine or for the other one.
#
# Settings, each with its default:
#   XORF_SRC  the folder with the files of the Rust crate xorf 0.13.0   ../shared/docs/src beside the repository
#   JOBS      how many jobs cargo may run at once                       all processors
# shellcheck disable=SC2034,SC2154  # settings.sh sets some of the names here, and the scripts read others

# What the programs of tools/oracle are built from. It comes before anything is proved, so that what is missing is said at once.
find_rust() { # x86_64|aarch64, the machine of the program
  need cargo "rustc and cargo are needed, 1.77 or later (Debian 12: apt-get install -y rustc-web cargo-web)"
  find_libm
  write_xorf
  choose_target "$1"
}

# Sets programs to the folder of the programs, target_words to what cargo is told, and run_words to the words before a program: for the
# other machine it is linked statically, and run in an emulator.
choose_target() { # x86_64|aarch64
  local triple=$1-unknown-linux-gnu gcc=$1-linux-gnu-gcc flags
  programs=$root/target/oracle/release target_words=()
  if [ "$1" != "$machine" ]; then
    find_cross "$1" "$triple" "$gcc"
    programs=$root/target/oracle/$triple/release
    write_static_libm "$gcc" "$root/target/oracle/$triple/lib"
    flags="\"-C\", \"target-feature=+crt-static\", \"-L\", \"native=$root/target/oracle/$triple/lib\""
    target_words=(--target "$triple" --config "target.$triple.linker=\"$gcc\"" --config "target.$triple.rustflags=[$flags]")
  fi
  run_for "$1"
}

# Looks for what links a program for the other machine: rustc's library, a compiler and a C library for it.
find_cross() { # MACHINE TRIPLE GCC
  local debian=arm64 packages folder
  [ "$1" = aarch64 ] || debian=amd64
  packages="Debian 12: dpkg --add-architecture $debian && apt-get update && apt-get install -y rustc-web cargo-web"
  packages+=" libstd-rust-web-dev:$debian gcc-${1//_/-}-linux-gnu libc6-dev-$debian-cross"
  folder=$(rustc --print target-libdir --target "$2") || folder=none
  compgen -G "$folder/libstd-*.rlib" >/dev/null || cannot_cross "$1" "rustc's library for $2" "$packages (rustup: rustup target add $2)"
  command -v "$3" >/dev/null || cannot_cross "$1" "$3" "$packages"
  [ -f "$("$3" -print-file-name=libc.a)" ] || cannot_cross "$1" "the C library for it" "$packages"
}

# Sets libm_registry to the folder that serves cargo as the source of libm. As a plain path libm does not build: it denies warnings.
find_libm() {
  local missing="the source of libm is missing: apt-get install -y librust-libm-dev" listed manifest
  listed=$(dpkg -L librust-libm-dev 2>/dev/null) || fail "$missing"
  manifest=$(grep -E '/libm-[0-9.]+/Cargo.toml$' <<<"$listed") || fail "$missing"
  libm_registry=$(dirname "$(dirname "$manifest")")
}

write_if_changed() { # FILE, its text on stdin
  local text
  text=$(cat)
  if [ ! -f "$1" ] || [ "$text" != "$(cat "$1")" ]; then
    printf '%s\n' "$text" >"$1"
  fi
}

# Writes target/xorf: a crate whose modules are the files in XORF_SRC, unchanged and where they lie, and whose traits are the end of
# the crate's own lib.rs. (That lib.rs also names modules whose files are not at hand, so it does not build as it stands.)
write_xorf() {
  local files traits_begin='/// Methods common to xor filters.'
  XORF_SRC=${XORF_SRC:-$root/../shared/docs/src}
  [ -f "$XORF_SRC/src/lib.rs" ] || fail "there is no $XORF_SRC/src/lib.rs: set XORF_SRC to the folder with the files of xorf 0.13.0"
  files=$(realpath "$XORF_SRC/src")
  grep -qF "$traits_begin" "$files/lib.rs" || fail "$files/lib.rs does not hold the line '$traits_begin'"
  mkdir -p "$root/target/xorf"
  write_if_changed "$root/target/xorf/Cargo.toml" <<EOF
[package]
name = "xorf"
version = "0.13.0"
edition = "2021"

[lib]
path = "lib.rs"

[features]
default = ["binary-fuse"]
binary-fuse = []

[dependencies]
libm = "0.2"
EOF
  {
    echo '#![no_std]'
    echo '#![allow(dead_code, unexpected_cfgs)]'
    echo '#[macro_use]'
    echo 'extern crate alloc;'
    local module
    for module in murmur3 splitmix64 prelude/mod bfuse8 bfuse16 xor8; do
      echo "#[path = \"$files/$module.rs\"]"
      echo "mod ${module%/mod};"
    done
    echo 'pub use bfuse16::{BinaryFuse16, BinaryFuse16Ref};'
    echo 'pub use bfuse8::{BinaryFuse8, BinaryFuse8Ref};'
    echo 'pub use prelude::Descriptor;'
    echo 'pub use splitmix64::splitmix64;'
    echo 'pub use xor8::Xor8;'
    sed -n "\#^$traits_begin#,\$p" "$files/lib.rs"
  } | write_if_changed "$root/target/xorf/lib.rs"
}

# Builds one program of tools/oracle for release, with no network, after find_rust.
build_oracle() { # PROGRAM
  (
    cd "$root/tools/oracle"
    CARGO_TARGET_DIR=$root/target/oracle cargo build --quiet --release --offline --bin "$1" ${JOBS:+-j "$JOBS"} "${target_words[@]}" \
      --config 'source.crates-io.replace-with="debian"' --config "source.debian.directory=\"$libm_registry\""
  ) || fail "tools/oracle does not build"
}
