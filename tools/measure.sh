#!/usr/bin/env bash
# Times the program on large runs, beside the C program of docs/performance under the sanitizers, and on its largest
# inputs: prints two tables and what grew faster than its work. It proves and builds what is missing first, and stands
# outside the gate. Its words are those of measure.py after the program.
top="$(cd "$(dirname "$0")/.." && pwd)"
(cd "$top" && ./ppd >/dev/null </dev/null)
[ -x "$top/.built/ppd" ] || exit 1
python3 "$top/tools/measure.py" "$top/.built/ppd" --beside "$@" || exit 1
echo
python3 "$top/tools/measure.py" "$top/.built/ppd" "$@"
