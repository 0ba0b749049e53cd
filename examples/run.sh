#!/bin/sh
# Builds the library's archive, and builds and runs an example over it: run.sh c, or run.sh rust.
set -eu
cd "$(dirname "$0")/.."
mkdir -p target
(cd crates/capi && rt lib) >target/archive.log 2>&1 || { cat target/archive.log >&2; exit 1; }
archive=crates/capi/out/libcapi.a
case ${1:-} in
    c) "${CC:-cc}" -Iinclude examples/worked.c "$archive" -o target/worked ;;
    rust) rustc -O examples/worked.rs -C "link-arg=$archive" -o target/worked ;;
    *)
        echo 'run.sh: say c or rust' >&2
        exit 2
        ;;
esac
exec target/worked
