#!/bin/sh
# Compares the program `kit` with tools/kit.py on random scripts:
#
#     tools/check_run.sh [SEED [SCRIPTS [COUNT [WORD_FILE]]]]
#
# Each of SCRIPTS scripts (3) has about COUNT commands (2000) of its own seed, SEED (1) and up; some lines have a
# megabyte. It is written for each suite, in the number lexicon and in the words of WORD_FILE (the published list), and
# faulty word files are opened. The samples of the gate are run first, in both suites and both lexicons.
# The program is crates/kit/out/kit, where `rt run` puts it once it is proved; where there is none, that is run first.
# A difference is printed, and the commands that show it are left in the folder named. The status is then 1.
set -eu
root=$(cd "$(dirname "$0")/.." && pwd)
seed=${1:-1}
scripts=${2:-3}
count=${3:-2000}
words=${4:-$root/crates/vectors/data/slip39-words.txt}
program=$root/crates/kit/out/kit
work=$(mktemp -d)

if [ ! -x "$program" ]; then
    (cd "$root/crates/kit" && rt run -- numbers shop </dev/null >"$work/check.log" 2>&1) || true
    if [ ! -x "$program" ]; then
        echo "rt run made no program: see $work/check.log" >&2
        exit 1
    fi
fi

# compare NAME LEXICON SUITE: both programs answer the commands in the file NAME alike
compare() {
    "$program" "$2" "$3" <"$work/$1" >"$work/$1.program"
    python3 "$root/tools/kit.py" "$2" "$3" <"$work/$1" >"$work/$1.python"
    if ! cmp "$work/$1.program" "$work/$1.python"; then
        diff "$work/$1.python" "$work/$1.program" | cut -c1-200 | head -20
        echo "different answers in the lexicon $2 and the suite $3: see $work/$1" >&2
        exit 1
    fi
}

: >"$work/empty"
cp "$root/crates/kit/stdin" "$work/samples"
cp "$root/crates/vectors/stdin" "$work/vectors"
for suite in shop drill; do
    compare empty numbers "$suite"
    compare samples numbers "$suite"
    tail -n 1 "$work/samples.program"
    compare samples "$words" "$suite"
    compare vectors "$words" "$suite"
    tail -n 1 "$work/vectors.program"
done
this=$seed
while [ "$this" -lt "$((seed + scripts))" ]; do
    for suite in shop drill; do
        python3 "$root/tools/random_commands.py" "$this" "$count" "$suite" >"$work/$suite$this"
        compare "$suite$this" numbers "$suite"
        tail -n 1 "$work/$suite$this.program"
        python3 "$root/tools/random_commands.py" "$this" "$count" "$suite" "$words" >"$work/$suite-words$this"
        compare "$suite-words$this" "$words" "$suite"
        tail -n 1 "$work/$suite-words$this.program"
    done
    for fault in 0 1 2 3 4 5 6 7 8 9 10 11 12 13 14 15 16 17 18 19; do
        python3 "$root/tools/random_word_file.py" "$((this * 20 + fault))" "$words" >"$work/words"
        compare empty "$work/words" shop
    done
    this=$((this + 1))
done

# what is no argument, no file or no word file gets one line, and the status 0
: >"$work/nothing"
for arguments in "" "numbers" "numbers nosuch" "numbers shop more" "no/such/file shop" "$work shop" \
    "$work/nothing shop"; do
    # shellcheck disable=SC2086
    "$program" $arguments </dev/null >"$work/arguments.program"
    # shellcheck disable=SC2086
    python3 "$root/tools/kit.py" $arguments </dev/null >"$work/arguments.python"
    cmp "$work/arguments.program" "$work/arguments.python"
done
rm -r "$work"
echo "the answers agree: samples, and $scripts scripts from seed $seed"
