#!/usr/bin/env bash
# Where the instructions of a program go on a benchmark plan: profile.sh program plan [yes]
# With yes, a function's count includes what it calls.
set -euo pipefail
folder=$(mktemp -d)
trap 'rm -rf "$folder"' EXIT
valgrind --tool=callgrind --callgrind-out-file="$folder/out" "$1" <"$2" >/dev/null 2>"$folder/log"
callgrind_annotate --inclusive="${3:-no}" --auto=no --threshold=99 "$folder/out" | sed -n '/Ir/,$p'
