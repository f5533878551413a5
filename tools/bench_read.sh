#!/bin/sh
# How long one `read` of a 33-word card takes, printing included, in the number lexicon and in a word file:
#
#     tools/bench_read.sh [WORD_FILE]
#
# The program is crates/kit/out/kit, where `rt run` puts it. Times are in microseconds a card; half of the lines are
# ten times as long, by a remark, to show that the cost grows with the line.
set -eu
root=$(cd "$(dirname "$0")/.." && pwd)
words=${1:-$root/crates/vectors/data/slip39-words.txt}
work=$(mktemp -d)
python3 "$root/tools/bench_read.py" "$root/crates/kit/out/kit" "$words" "$work"
rm -r "$work"
