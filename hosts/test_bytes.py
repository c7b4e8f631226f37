"""Compares fancy_bytes.h with the decoders of Python on random bytes.

    python3 test_bytes.py PROGRAM

PROGRAM is made of bytes.c.
"""
import random
import subprocess
import sys

PIECES = [b"a", b"\n", "é".encode(), "€".encode(), "😀".encode(), "\ufffd".encode(), b"\xff", b"\x80", b"\xc1", b"\xe0\x80", b"\xe2\x82"]
PIECES += [b"\xed\xa0\x80", b"\xf0\x9f", b"\xf0\x9f\x98", b"\xf4\x90\x80\x80"]


def characters(data):
    """Each character of bytes that are read as UTF-8, and how many bytes it stands for."""
    at = 0
    while at < len(data):
        try:
            rest, start, end = data[at:].decode(), None, None
        except UnicodeDecodeError as fault:
            rest, start, end = data[at : at + fault.start].decode(), fault.start, fault.end
        yield from ((it, len(it.encode())) for it in rest)
        if start is None:
            return
        yield "\ufffd", end - start
        at += end


def expected(data, kind):
    read = [(chr(it), 1) for it in data] if kind == "latin1" else [*characters(data)]
    text = "".join(it for it, _ in read)
    assert kind == "latin1" or text == data.decode("utf-8", "replace")
    offsets, places = [0], [0]
    for character, length in read:
        offsets.append(offsets[-1] + length)
        places.append(places[-1] + len(character.encode()))
    found, number = [], 0
    for at in range(len(data) + 3):
        while number < len(read) and offsets[number] < at:
            number += 1
        found.append(places[number])
    return b"\n".join([b"%d" % places[-1], text.encode(), *(b"%d" % it for it in offsets + found)])


def main():
    source, count = random.Random(1), 400
    for number in range(count):
        pieces, kind = source.sample(PIECES, source.randint(1, 6)), ("latin1", "lossy")[number % 2]
        data = b"".join(source.choice(pieces) for _ in range(source.choice([0, 1, 2, 5, 20, 100, 300, 1000])))
        ran = subprocess.run([sys.argv[1], kind], input=data, capture_output=True, check=True)
        if ran.stdout != expected(data, kind):
            sys.exit(f"{data!r} as {kind}: {ran.stdout!r}, and not {expected(data, kind)!r}")
    print(f"{count} texts of bytes")


if __name__ == "__main__":
    main()
