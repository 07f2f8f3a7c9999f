#!/usr/bin/env bash
# Runs scripts of up to 16 threads, made by number, on each store in turn, for so many minutes (one, if none is named), and checks each text
# with `kcas check` and with a second reader, and mutations of it too. Outside the gate; fails where the two say different things.
# Usage: tools/soak.sh [MINUTES [FIRST]]
set -eu
top="$(cd "$(dirname "$0")/.." && pwd)"
"$top/kcas" run < "$top/examples/first.kcas" > /dev/null
exec python3 "$top/tools/soak/soak.py" "$top/crates/kcas/out/kcas" "${1:-1}" "${2:-0}"
