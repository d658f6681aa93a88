#!/usr/bin/env bash
# Compares zoneplan with the twin on random plans: differ.sh [count] [seed] [zoneplan]
set -euo pipefail
here=$(dirname "$(realpath "$0")")
zoneplan=$(realpath -e "${3:-$here/../crates/zoneplan/out/zoneplan}")
cd "$here"
cargo build --release --quiet
exec target/release/differ "$zoneplan" "${1:-20000}" "${2:-1}" target
