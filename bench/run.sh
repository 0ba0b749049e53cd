#!/bin/sh
# Times the library, the listed Rust, plain loops, OpenBLAS and reference BLAS in one run and
# prints a table. With --write the table goes to docs/BENCHMARKS.md too.
#
# KONSJIFT_LIB         the library's archive (else crates/capi/out/libcapi.a of the repository);
#                      without it only the other sides are timed, and nothing is written
# CALL                 how the names of the calls to be timed begin (else all)
# ROUNDS               rounds for each row (else 11)
# BATCH_MICROSECONDS   how long a side runs in a round (else 2000)
set -eu
"$(dirname "$0")/../oracle/build.sh"
archive=${KONSJIFT_LIB:+$(realpath "$KONSJIFT_LIB")}
cd "$(dirname "$0")/../oracle"
./packages.sh libblas3 libopenblas0-serial
if [ -z "$archive" ] && [ -f ../crates/capi/out/libcapi.a ]; then
    archive=$(realpath ../crates/capi/out/libcapi.a)
fi
export KONSJIFT_LIB="$archive"
cargo build --quiet --offline -j "${JOBS:-1}" --release -p bench
REFERENCE_BLAS=$(dpkg -L libblas3 | grep '/libblas\.so\.3$' | head -n 1)
OPENBLAS=$(dpkg -L libopenblas0-serial | grep '/libopenblas\.so\.0$' | head -n 1)
version() { dpkg-query -W -f '${Version}' "$1"; }
processor=$(sed -n 's/^model name[^:]*: //p' /proc/cpuinfo | head -n 1)
# Runnable processes beside processors: on a machine that is not idle, times are longer and less even.
load="$(cut -d ' ' -f 1 /proc/loadavg) processes running or waiting on $(nproc) processors as it began"
ABOUT="$(date -u +%Y-%m-%d), $processor, $load, $(rustc --version), OpenBLAS $(version libopenblas0-serial) on one thread, reference BLAS $(version libblas3)."
export REFERENCE_BLAS OPENBLAS ABOUT
case ${1:-} in
    --write) mkdir -p ../docs && exec target/release/bench ../docs/BENCHMARKS.md ;;
    *) exec target/release/bench ;;
esac
