"""Times `kit` on many 33-word cards: python3 tools/bench_read.py PROGRAM WORD_FILE WORK_FOLDER."""

import random
import subprocess
import sys
import time

import slip39

CARDS = 20000


def commands(lexicon, remark):
    source = random.Random(7)
    lines = []
    for _ in range(200):
        card = slip39.Card(
            identifier=source.randrange(1 << 15),
            flag=source.randrange(2),
            exponent=source.randrange(16),
            group=0,
            group_threshold=1,
            group_count=1,
            member=source.randrange(16),
            member_threshold=2,
            value=source.randbytes(32),
        )
        lines.append(b"read " + slip39.write_card(lexicon, card) + remark)
    return b"\n".join(lines * (CARDS // 200)) + b"\n"


def microseconds(program, arguments, text):
    start = time.perf_counter()
    subprocess.run([program, *arguments, "shop"], input=text, stdout=subprocess.DEVNULL, check=True)
    return (time.perf_counter() - start) * 1e6 / CARDS


def main(program, words, _work):
    numbers = slip39.number_lexicon()
    listed = slip39.word_file(open(words, "rb").read())
    for name, argument, lexicon in (("number lexicon", "numbers", numbers), ("word file", words, listed)):
        for what, remark in (("", b""), (", with a long remark", b" #" + b"x" * 2000)):
            print(f"{name}{what}: {microseconds(program, [argument], commands(lexicon, remark)):.1f} microseconds a card")


if __name__ == "__main__":
    main(*sys.argv[1:])
