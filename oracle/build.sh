#!/bin/sh
# Builds the judge: the packages it needs, the listed Rust unchanged beside stubs for what is not
# listed, and the driver. Words after it go to the driver: build.sh run 400000
#
# DIFFSOL_LA_SRC  the folder with the src/ of diffsol-la 0.3.0 (else ../shared/docs/src, seen from
#                 the repository)
# KONSJIFT_LIB    the library's archive (else crates/capi/out/libcapi.a of the repository, where
#                 it is there); without it the driver has the Rust and the definitions only
# PROFILE         release (else) or dev
set -eu
# What is named is seen from where the caller stands.
source=${DIFFSOL_LA_SRC:+$(realpath "$DIFFSOL_LA_SRC")}
archive=${KONSJIFT_LIB:+$(realpath "$KONSJIFT_LIB")}
cd "$(dirname "$0")"
source=${source:-../../shared/docs/src}
profile=${PROFILE:-release}

./packages.sh librust-num-traits-dev librust-thiserror-dev libblas3

if [ ! -f "$source/src/vector/nalgebra_serial.rs" ]; then
    echo "build.sh: no src/ of diffsol-la in $source; set DIFFSOL_LA_SRC" >&2
    exit 1
fi
# Times are kept, so that cargo builds nothing twice.
rm -rf listed/diffsol-la
mkdir -p listed/diffsol-la
cp -Rp "$source/src" listed/diffsol-la/
chmod -R u+w listed/diffsol-la
cp -p absent/Cargo.toml listed/diffsol-la/
for stub in lib.rs linear_solver.rs matrix/default_solver.rs matrix/extract_block.rs matrix/sparsity.rs; do
    if [ -e "listed/diffsol-la/src/$stub" ]; then
        echo "build.sh: $stub is listed after all; its stub must go" >&2
        exit 1
    fi
    cp -p "absent/$stub" "listed/diffsol-la/src/$stub"
done
# Nothing of the listed Rust was touched.
(cd "$source" && find src -type f) | while read -r file; do
    cmp "$source/$file" "listed/diffsol-la/$file"
done

if [ -z "$archive" ] && [ -f ../crates/capi/out/libcapi.a ]; then
    archive=$(realpath ../crates/capi/out/libcapi.a)
fi
export KONSJIFT_LIB="$archive"
cargo build --quiet --offline -j "${JOBS:-1}" --profile "$profile" -p oracle
[ $# -gt 0 ] || exit 0
REFERENCE_BLAS=$(dpkg -L libblas3 | grep '/libblas\.so\.3$' | head -n 1)
export REFERENCE_BLAS
case $profile in
    dev) exec target/debug/oracle "$@" ;;
    *) exec "target/$profile/oracle" "$@" ;;
esac
