#!/usr/bin/env bash
# Lets four threads read, name, clear and bury the same texts in ten thousand rounds, with the address sanitizer and all checks:
# each text is buried once, and nobody sees other bytes. Works in a clone of its own, and proves nothing.
# Usage: tools/texts.sh
set -eu
top="$(cd "$(dirname "$0")/.." && pwd)"
room="$(mktemp -d)"
trap 'rm -rf "$room"' EXIT
git clone -q "$top" "$room/kcas"
cd "$room/kcas/crates/kc_text_tests"
sed -i 's/^const ROUNDS: u32 = .*;/const ROUNDS: u32 = 10_000;/' src/threads.rt
grep -q '^const ROUNDS: u32 = 10_000;' src/threads.rt
time rt try --test --seconds 3600
