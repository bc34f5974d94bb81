#!/usr/bin/env bash
# Builds the port as static libraries for C and Rust callers, and leaves them in target/staticlib: libhost.a, libfactor_host.a, libsolver_host.a.
# The crate `host` is a library that other crates name, so its exports stand in a crate of their own, host_c; the archive keeps its name.
set -euo pipefail
cd "$(dirname "${BASH_SOURCE[0]}")/.."
. scripts/kit.sh

mkdir -p target/staticlib
build() { # CRATE, ARCHIVE
    say "building target/staticlib/lib$2.a of crate $1 (rt lib)"
    (cd "crates/$1" && rt lib)
    cp "crates/$1/out/lib$1.a" "target/staticlib/lib$2.a"
}
build host_c host
build factor_host factor_host
build solver_host solver_host
