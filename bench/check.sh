#!/usr/bin/env bash
# Measures `dolmen check` on accepted scripts of 1 to 64 MB that have many small commands, in QF_UF: one of the parts of
# bench/logics.sh. Scripts with many names are for declarations.sh.
set -euo pipefail
cd "$(dirname "$0")/.."
exec bench/logics.sh "${1:-crates/dolmen/out/dolmen}" QF_UF wide
