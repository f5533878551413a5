#!/usr/bin/env python3
"""Writes what the program `digests` must answer to the commands of the standard input, by Python's hashlib and hmac.

    python3 tools/digest_expect.py < crates/digests/stdin > crates/digests/stdout

The digests that FIPS 180-4's examples and RFC 4231 publish are checked on the way.
"""
import hashlib
import hmac
import sys

LONGEST = 65536
PUBLISHED = [
    "ba7816bf8f01cfea414140de5dae2223b00361a396177a9cb410ff61f20015ad",
    "e3b0c44298fc1c149afbf4c8996fb92427ae41e4649b934ca495991b7852b855",
    "248d6a61d20638b8e5c026930c3e6039a33ce45964ff2167f6ecedd419db06c1",
    "cf5b16a778af8380036ce59e7b0492370b249b11e8f07a51afac45037afee9d1",
    "cdc76e5c9914fb9281a1c7e284d73e67f1809a48a497200e046d39ccc7112cd0",
    "b0344c61d8db38535ca8afceaf0bf12b881dc200c9833da726e9376c2e32cff7",
    "5bdcc146bf60754e6a042426089575c75a003f089d2739839dec58b964ec3843",
    "773ea91e36800e46854db8ebd09181a72959098b3ef8c122d9635514ced565fe",
    "82558a389a443c0ea4cc819899f2083a85f0faa3e578f8077a2e3ff46729665b",
    "a3b6167473100ee06e0c796c2955552b",  # cut to 128 bits in RFC 4231
    "60e431591ee0b67f0d8a26aacbf5b77f8e0bc6213728c5140546040f0ee37f54",
    "9b09ffa71b942fcb27635fbcd5b0e944bfdc63644f0713938a7f51535c3a35e2",
]


def data(word):
    if word == "-":
        return bytearray()
    digits, _, count = word.partition("*")
    return bytearray(bytes.fromhex(digits) * int(count or 1))


def hmac_sha256(key, message):
    return hmac.new(key, message, hashlib.sha256).digest()


def drill(key, message):
    lanes = [0, 0, 0, 0]
    for position, byte in enumerate(key + message):
        lanes[position % 4] ^= byte
    return bytes(lanes)


DIGESTS = {"hmac": (hmac_sha256, 32), "drill": (drill, 4)}


def refusal(size, inputs, spaces):
    if any(len(x) > LONGEST for x in inputs):
        return f"refused 13 digest {LONGEST} "
    if any(len(x) < size for x in spaces):
        return f"refused 12 digest {size} "
    return ""


def digest(name, space, key, message):
    function, size = DIGESTS[name]
    key, message, space = data(key), data(message), bytearray(b"\xee" * int(space))
    why = refusal(size, [key, message], [space])
    if not why:
        space[:size] = function(key, message)
    return why + space.hex()


def chain(name, count, key, link, total):
    function, size = DIGESTS[name]
    key, link, total = data(key), data(link), data(total)
    why = refusal(size, [key], [link, total])
    if not why:
        for _ in range(int(count)):
            link[:size] = function(key, link[:size])
            total[:size] = bytes(x ^ y for x, y in zip(total, link[:size]))
    return f"{why}{link.hex()} {total.hex()}"


def answer(line):
    name, *words = line.split()
    if name == "sha256":
        return hashlib.sha256(data(words[0])).hexdigest()
    if name.endswith("-chain"):
        return chain(name.removesuffix("-chain"), *words)
    return digest(name, *words)


def main():
    answers = [answer(line) for line in sys.stdin]
    for published, ours in zip(PUBLISHED, answers):
        if not ours.startswith(published):
            sys.exit(f"not the published digest: {ours}")
    print("\n".join(answers))


if __name__ == "__main__":
    main()
