#!/usr/bin/env bash
# Instructions and time per call of zoneplan and of the twin, less those of an empty plan:
# measure.sh [zoneplan] [runs] [pattern of plan names]
set -euo pipefail
here=$(dirname "$(realpath "$0")")
zoneplan=$(realpath -e "${1:-$here/../crates/zoneplan/out/zoneplan}")
runs=${2:-200} pattern=${3:-*}
cd "$here"
twin=target/release/twin plans=target/plans
cargo build --release --quiet
target/release/plans "$plans"
folder=$(mktemp -d)
trap 'rm -rf "$folder"' EXIT

# The instructions of a program on a plan.
instructions() {
    valgrind --tool=callgrind --callgrind-out-file="$folder/out" "$1" <"$plans/$2.plan" \
        >/dev/null 2>"$folder/log" || { cat "$folder/log" >&2; return 1; }
    awk '$1 == "totals:" { print $2 }' "$folder/out"
}

declare -A empty
for size in 64 1024 4096; do
    empty[zoneplan-$size]=$(instructions "$zoneplan" "empty-$size")
    empty[twin-$size]=$(instructions "$twin" "empty-$size")
done

printf '%-20s %6s %10s %8s %6s %10s %8s %6s\n' plan calls zoneplan twin ratio zoneplan twin ratio
printf '%-20s %6s %26s %26s\n' '' '' 'instructions per call' 'ns per call'
for size in 64 1024 4096; do
    for mix in cons turns replacement reading largest-look largest-mixed; do
        plan=$mix-$size
        # shellcheck disable=SC2053
        [[ $plan == $pattern ]] || continue
        calls=$(($(wc -l <"$plans/$plan.plan") - 1))
        a=$(($(instructions "$zoneplan" "$plan") - empty[zoneplan-$size]))
        b=$(($(instructions "$twin" "$plan") - empty[twin-$size]))
        times=$(target/release/timing "$zoneplan" "$twin" "$plans/$plan.plan" "$plans/empty-$size.plan" "$runs")
        awk -v plan="$plan" -v n="$calls" -v a="$a" -v b="$b" '{
            printf "%-20s %6d %10.1f %8.1f %6.2f %10.1f %8.1f %6.2f\n",
                plan, n, a / n, b / n, a / b, $1 / n, $2 / n, $2 ? $1 / $2 : 0 }' <<<"$times"
    done
done
