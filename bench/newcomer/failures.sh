#!/usr/bin/env bash
# Has ./acdm prove fail in each way that a newcomer meets, in fresh clones, and fails where it does not say what to do.
# The full disk is a file system in memory, which needs the right to mount one (root, or a user's own name space).
set -euo pipefail
top="$(cd "$(dirname "${BASH_SOURCE[0]}")/../.." && pwd)"
room="$(mktemp -d)"
trap 'pkill -P $$ 2> /dev/null || true; rm -rf "$room"' EXIT

fail() {
    echo "failures: $1" >&2
    sed 's/^/    /' "$room/said" >&2
    exit 1
}

# The words after the first two end with this status, and say this on standard error.
says() {
    local status="$1" text="$2" found=0
    shift 2
    "$@" > /dev/null 2> "$room/said" || found=$?
    [ "$found" = "$status" ] || fail "'$*' ended with status $found, not $status"
    grep -q -- "$text" "$room/said" || fail "'$*' does not say: $text"
    echo "said: $(grep -m 1 -- "$text" "$room/said" | cut -c 1-140)"
}

# Waits until a prover is at work below a folder, and tells the numbers of its processes.
provers() {
    local found
    for _ in $(seq 600); do
        found="$(pgrep -f "rattle (build|check)" | while read -r it; do
            case "$(readlink "/proc/$it/cwd" 2> /dev/null)" in "$1"*) echo "$it" ;; esac
        done)"
        [ -z "$found" ] || break
        sleep 0.1
    done
    echo "$found"
}

git clone --quiet "$top" "$room/clone"
cd "$room/clone"

says 2 "install the kit" env PATH=/nowhere "$(python3 -c 'import sys; print(sys.executable)')" ./acdm prove
says 2 "one word at most" ./acdm prove 1 2

# Two at once; then the first is stopped, and what it proved is kept.
# (with job control, or what is started in the background would not hear of an interrupt)
set -m
./acdm prove 2> "$room/first" > /dev/null &
first=$!
set +m
[ -n "$(provers "$room/clone")" ] || fail "no prover was started"
says 2 "another ./acdm prove is at work here (process $first)" ./acdm prove
for _ in $(seq 1200); do
    grep -q " 1 of " "$room/first" && break
    sleep 0.2
done
kill -INT "$first"
status=0
wait "$first" || status=$?
cp "$room/first" "$room/said"
[ "$status" = 130 ] || fail "what was stopped ended with status $status, not 130"
grep -q "goes on from there" "$room/said" || fail "what was stopped does not say that it goes on"
kept="$(sed -n 's/^acdm: .* of .*: \([a-z_]*\), .*/\1/p' "$room/said" | head -n 1)"
[ -f "crates/$kept/out/rlib/stamp" ] || fail "of $kept nothing is kept"
echo "kept: $kept"

# The prover is killed, as a system does that has no memory left.
./acdm prove 1 2> "$room/said" > /dev/null &
first=$!
for _ in $(seq 60); do
    for it in $(provers "$room/clone"); do kill -KILL "$it" 2> /dev/null || true; done
    kill -0 "$first" 2> /dev/null || break
    sleep 1
done
status=0
wait "$first" || status=$?
[ "$status" = 2 ] || fail "where the prover was killed, prove ended with status $status"
grep -q "for want of memory" "$room/said" || fail "where the prover was killed, memory is not named"
echo "said: $(grep -m 1 "for want of memory" "$room/said" | cut -c 1-140)"

# The disk is full.
mkdir "$room/small"
cat > "$room/full.sh" << 'SCRIPT'
mount -t tmpfs -o size="$3" none "$1"
git clone --quiet "$2" "$1/clone"
cd "$1/clone"
exec ./acdm prove
SCRIPT
size=$(($(git -C "$top" ls-files -z | (cd "$top" && xargs -0 du -bc --) | awk '/total$/ { sum = $1 } END { print int(sum / 1048576) }') * 4 + 24))m
if unshare -m true 2> /dev/null; then
    says 2 "the disk is full" unshare -m bash "$room/full.sh" "$room/small" "$top" "$size"
else
    says 2 "the disk is full" unshare -rm bash "$room/full.sh" "$room/small" "$top" "$size"
fi
echo "failures: each says what to do"
