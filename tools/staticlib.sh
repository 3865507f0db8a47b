#!/usr/bin/env bash
# Proves the C functions and lays their archive, for C programs and for bench/, at target/staticlib/libstellarsnare.a.
set -euo pipefail
cd "$(dirname "$0")/.."
(cd crates/stellarsnare_c && rt lib)
mkdir -p target/staticlib
cp crates/stellarsnare_c/out/libstellarsnare_c.a target/staticlib/libstellarsnare.a
