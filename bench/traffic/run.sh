#!/usr/bin/env bash
# Measures acdm on a day of traffic, and compares its replies with the model's on a smaller one.
# Words: how many flights the day has (4000), and how many the smaller one (200).
set -euo pipefail
here="$(cd "$(dirname "${BASH_SOURCE[0]}")" && pwd)"
top="$(cd "$here/../.." && pwd)"
flights="${1:-4000}"
compared="${2:-200}"
work="$(mktemp -d)"
trap 'rm -rf "$work"' EXIT

"$top/acdm" prove
python3 "$here/generate.py" --flights "$flights" > "$work/day"
python3 "$here/measure.py" "$work/day" "$work/replies" "$top/crates/acdm/out/acdm" run
echo "replies: $(cut -d ' ' -f 1 "$work/replies" | sort | uniq -c | awk '{ print $1, $2 }' | paste -sd ,)"

echo "against the model, $compared flights:"
python3 "$here/generate.py" --flights "$compared" > "$work/small"
"$top/crates/acdm/out/acdm" run < "$work/small" > "$work/found"
python3 "$top/bench/model/board.py" --against "$work/found" < "$work/small"
