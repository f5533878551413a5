"""Writes a word file with a random fault, or none: python3 tools/random_word_file.py SEED WORD_FILE > file.

The same seed gives the same bytes.
"""

import pathlib
import random
import sys


def fault(rng, lines):
    """The lines with one fault."""
    at = rng.randrange(len(lines))
    other = rng.randrange(len(lines))
    word = lines[at][:-1]
    match rng.randrange(10):
        case 0:
            del lines[at]
        case 1:
            lines.insert(at, lines[at])
        case 2:
            lines[at], lines[other] = lines[other], lines[at]
        case 3:
            lines[at] = word + b"z" * (9 - len(word)) + b"\n"
        case 4:
            lines[at] = word[:3] + b"\n"
        case 5:
            lines[at] = word + rng.choice([b" ", b"\r", b"\t", b"\n", b"\x00", b"\xff", b"1", b"A"]) + b"\n"
        case 6:
            lines[at] = lines[at - 1][:4] + b"zzzz\n"
        case 7:
            lines[at] = word
        case 8:
            lines.append(rng.choice([b"\n", b"zzzz\n", b"zzzzz", b" ", b"\x00"]))
        case _:
            lines[at] = word.replace(word[1:2], bytes([rng.randrange(256)]), 1) + b"\n"


def main(seed, word_file):
    rng = random.Random(seed)
    lines = pathlib.Path(word_file).read_bytes().splitlines(keepends=True)
    for _ in range(rng.randrange(3)):
        fault(rng, lines)
    content = b"".join(lines)
    if rng.randrange(5) == 0:
        content = content[: rng.randrange(len(content) + 1)]
    sys.stdout.buffer.write(content)


if __name__ == "__main__":
    main(int(sys.argv[1]), sys.argv[2])
