#!/usr/bin/env bash
# Does what README.md tells a newcomer, in a fresh clone in an empty folder, and fails where something else comes out.
# Words: how long the first reply may take, in seconds (120).
set -euo pipefail
top="$(cd "$(dirname "${BASH_SOURCE[0]}")/../.." && pwd)"
most="${1:-120}"
room="$(mktemp -d)"
trap 'rm -rf "$room"' EXIT

fail() {
    echo "newcomer: $1" >&2
    exit 1
}

# Runs the clone's acdm on an example, and compares its replies with the shipped ones.
replies() {
    local example="$room/clone/examples/$1"
    "$room/clone/acdm" run < "$example.txt" > "$room/found" 2> "$room/said" ||
        fail "$1 ended with status $?: $(tail -n 5 "$room/said")"
    cmp "$room/found" "$example.out" || fail "$1 has other replies"
}

git clone --quiet "$top" "$room/clone"

begin=$SECONDS
replies turn-round
took=$((SECONDS - begin))
echo "first reply after $took s"
[ "$took" -le "$most" ] || fail "that is more than $most s"
[ "$(wc -l < "$room/said")" = 1 ] || fail "standard error has not one line: $(cat "$room/said")"
grep -q "not proved" "$room/said" || fail "nothing says that this build is not proved"
"$room/clone/acdm" --version | grep -q "not proved" || fail "--version does not say that this build is not proved"
if "$room/clone/acdm" serve APT=127.0.0.1:0 2> "$room/said"; then fail "serve began without proofs"; fi
grep -q "acdm prove" "$room/said" || fail "serve does not say what to do first"

begin=$SECONDS
"$room/clone/acdm" prove || fail "prove ended with status $?"
echo "proved after $((SECONDS - begin)) s"
"$room/clone/acdm" --version | grep -q "^acdm: the proved program" || fail "--version does not say that the program is proved"
for example in turn-round day rules-day; do
    replies "$example"
    [ ! -s "$room/said" ] || fail "$example says on standard error: $(cat "$room/said")"
done

# A source that is not the proved one is not run by the proved program, which stays.
before="$(sha256sum < "$room/clone/crates/acdm/out/acdm")"
echo "// One line more." >> "$room/clone/crates/acdm/src/main.rt"
"$room/clone/acdm" --version | grep -q "not proved" || fail "a changed source counts as proved"
git -C "$room/clone" checkout --quiet crates/acdm/src/main.rt
[ "$before" = "$(sha256sum < "$room/clone/crates/acdm/out/acdm")" ] || fail "the proved program was replaced"
"$room/clone/acdm" --version | grep -q "^acdm: the proved program" || fail "the proved program is not known again"
echo "newcomer: all as README.md says"
