#!/usr/bin/env python3
"""Prints the cases of `pack`, `unpack` and `encode-y4m`, by a reader and a writer from the rules alone.

They share nothing with the program. The cases of `encode-y4m` stand in bench/cases/y4m_cases.py."""
from fractions import Fraction

RATES = {1: (24000, 1001), 2: (24, 1), 3: (25, 1), 4: (30000, 1001), 5: (30, 1), 6: (50, 1), 7: (60000, 1001), 8: (60, 1)}


class Fault(Exception):
    def __init__(self, kind, place):
        self.kind, self.place = kind, place


def size_of(w, h):
    return w * h + 2 * ((w + 1) // 2) * ((h + 1) // 2)


def line_at(text, at):
    """The line from a place on without its newline."""
    end = text.find(b"\n", at, at + 1024)
    if end < 0:
        raise Fault("Line", at)
    return text[at:end]


def is_word(text, at, word):
    return text[at:at + len(word)] == word and text[at + len(word):at + len(word) + 1] in (b" ", b"\n")


def digits(word, most):
    return 1 <= len(word) <= most and all(48 <= b <= 57 for b in word)


def rate_code(n, d):
    """The code of a rate; None where it has none."""
    return next((code for code, rate in RATES.items() if d and Fraction(n, d) == Fraction(*rate)), None)


def header(text):
    """Width, height, rate code and the length of the header line."""
    if not is_word(text, 0, b"YUV4MPEG2"):
        raise Fault("Magic", 0)
    line = line_at(text, 0)
    seen = {}
    at = 10
    for word in line.split(b" ")[1:]:
        letter, value = word[:1], word[1:]
        if not word or letter in seen:
            raise Fault("Field", at)
        if letter in (b"W", b"H"):
            if not digits(value, 4):
                raise Fault("Field", at)
            if not 1 <= int(value) <= (1920 if letter == b"W" else 1152):
                raise Fault("Size", at)
            seen[letter] = int(value)
        elif letter == b"F":
            n, colon, d = value.partition(b":")
            if not colon or not digits(n, 10) or not digits(d, 10):
                raise Fault("Field", at)
            seen[letter] = rate_code(int(n), int(d))
            if seen[letter] is None:
                raise Fault("Rate", at)
        elif letter == b"I":
            if value not in (b"p", b"t", b"?"):
                raise Fault("Interlace", at)
            seen[letter] = value
        elif letter == b"C":
            if value not in (b"420", b"420jpeg", b"420mpeg2", b"420paldv"):
                raise Fault("Chroma", at)
            seen[letter] = value
        at += len(word) + 1
    if any(k not in seen for k in (b"W", b"H", b"F")):
        raise Fault("Field", len(line))
    return seen[b"W"], seen[b"H"], seen[b"F"], len(line) + 1


def frames_behind(text, at, size):
    """The whole frames behind a header line, the bytes of a frame in which the text ends, and the first fault."""
    frames = []
    try:
        while at < len(text):
            line = line_at(text, at)
            if not is_word(text, at, b"FRAME") or at + len(line) + 1 == len(text):
                raise Fault("Frame", at)
            at += len(line) + 1
            part = text[at:at + size]
            if len(part) < size:
                return frames, len(part), None
            frames.append(part)
            at += size
        return frames, 0, None
    except Fault as f:
        return frames, 0, f


def told(fault):
    return f"y4m fault {fault.kind} at byte {fault.place}"


def unpack(text):
    """The status, the line and the output of `unpack`."""
    try:
        w, h, _, at = header(text)
    except Fault as f:
        return 15, told(f), b""
    frames, extra, fault = frames_behind(text, at, size_of(w, h))
    raw = b"".join(frames)
    if fault:
        return 15, told(fault), raw
    if extra:
        return 4, f"short frame extra {extra}", raw
    return 0, f"frames {len(frames)} bytes {len(raw)}", raw


def pack(w, h, code, top, raw):
    for have, need, less in ((w, 1, True), (w, 1920, False), (h, 1, True), (h, 1152, False), (code, 1, True), (code, 8, False)):
        if (have < need) if less else (have > need):
            return 3, f"unfit rule 8 have {have} need {need}", b""
    n, d = RATES[code]
    text = f"YUV4MPEG2 W{w} H{h} F{n}:{d} I{'t' if top else 'p'} A0:0 C420mpeg2\n".encode()
    size = size_of(w, h)
    frames = len(raw) // size
    for k in range(frames):
        text += b"FRAME\n" + raw[k * size:k * size + size]
    if len(raw) % size:
        return 4, f"short frame extra {len(raw) % size}", text
    return 0, f"frames {frames} bytes {len(text)}", text


def show(name, words, data, answer, each=None):
    status, line, out = answer
    if each:
        name += f", each call of the {each} fails in turn"
    print(f"case {name}\nwords {words}")
    for key, value in (("input", data),):
        for k in range(0, len(value), 40):
            print(key, value[k:k + 40].hex(" ").upper())
    if each:
        print("each", each)
    if status:
        print("status", status)
    print("report", line)
    for k in range(0, len(out), 40):
        print("output", out[k:k + 40].hex(" ").upper())
    print()


GREY = bytes([128] * 6)
HEAD = b"YUV4MPEG2 W2 H2 F25:1 Ip A0:0 C420mpeg2\n"


def texts():
    """Names and texts for `unpack`."""
    yield "a grey frame", HEAD + b"FRAME\n" + GREY
    yield "C422", HEAD.replace(b"C420mpeg2", b"C422") + b"FRAME\n" + GREY
    yield "no frames", HEAD
    yield "parameters of a frame line", HEAD + b"FRAME Ip x\n" + GREY
    yield "two frames", HEAD + b"FRAME\n" + GREY + b"FRAME I?\n" + bytes(range(6))
    for c in (b"420", b"420jpeg", b"420paldv", b"", b"420mpeg", b"mono"):
        yield "C" + c.decode(), HEAD.replace(b"C420mpeg2", b"C" + c) + b"FRAME\n" + GREY
    for i in (b"p", b"t", b"?", b"b", b"m", b"", b"pp"):
        yield "I" + i.decode(), HEAD.replace(b"Ip", b"I" + i) + b"FRAME\n" + GREY
    for f in (b"50:2", b"0000000025:1", b"00000000025:1", b"25", b"25:", b":1", b"25:0", b"0:0", b"0:1", b"24:1", b"48000:2002", b"25:1:1", b"x:1"):
        yield "F" + f.decode(), HEAD.replace(b"F25:1", b"F" + f) + b"FRAME\n" + GREY
    for w in (b"0002", b"00002", b"0", b"1920", b"1921", b"9999", b"", b"+2", b"2x"):
        yield "W" + w.decode(), HEAD.replace(b"W2", b"W" + w)
    for h in (b"1152", b"1153", b"0"):
        yield "H" + h.decode(), HEAD.replace(b"H2", b"H" + h)
    for name, line in (
        ("no magic", b"YUV4MPEG W2\n"), ("the magic alone", b"YUV4MPEG2"), ("the magic and a newline", b"YUV4MPEG2\n"),
        ("an empty input", b""), ("another magic", b"YUV4MPEG22 W2\n"), ("no newline", b"YUV4MPEG2 W2 H2 F25:1"),
        ("two spaces", HEAD.replace(b" H2", b"  H2")), ("a space at the end", HEAD.replace(b"\n", b" \n")),
        ("W again with a wrong value", HEAD.replace(b" H2", b" W0 H2")), ("C again", HEAD.replace(b"\n", b" C420\n")),
        ("X again", HEAD.replace(b"\n", b" X1 X1\n")), ("no W", HEAD.replace(b"W2 ", b"")), ("no F", HEAD.replace(b"F25:1 ", b"")),
        ("a fault of a word before a missing one", HEAD.replace(b"W2 ", b"").replace(b"Ip", b"Ib")),
        ("Magic before Line", b"YUV4MPEGX" + b"x" * 2000), ("Line before Field", b"YUV4MPEG2  W2"),
        ("a header line of 1,024 bytes", HEAD[:-1] + b" X" + b"x" * (1024 - len(HEAD) - 2) + b"\n"),
        ("a header line of 1,025 bytes", HEAD[:-1] + b" X" + b"x" * (1025 - len(HEAD) - 2) + b"\n"),
    ):
        yield name, line
    one = HEAD + b"FRAME\n" + GREY
    for name, rest in (
        ("a line that isn't FRAME", b"FRAM\n" + GREY), ("a bad line, and FRAME behind it", b"x\nFRAME\n" + GREY),
        ("FRAMES", b"FRAMES\n" + GREY), ("an empty line", b"\n"), ("an input that ends in a line", b"FRAME"),
        ("an input that ends in a bad line", b"x"), ("an input that ends behind a frame line", b"FRAME\n"),
        ("an input that ends in a frame", b"FRAME\n" + GREY[:1]), ("an input that lacks a byte", b"FRAME\n" + GREY[:5]),
        ("a frame line of 1,024 bytes", b"FRAME " + b"x" * 1017 + b"\n" + GREY),
        ("a frame line of 1,025 bytes", b"FRAME " + b"x" * 1018 + b"\n" + GREY),
        ("Line before Frame", b"x" * 1025),
    ):
        yield name + ", first", HEAD + rest
        yield name + ", second", one + rest


def main():
    print("# ---- pack and unpack\n")
    for each in (None, "input", "output", "report"):
        show("pack: a grey frame", "pack 2 2 3", GREY, pack(2, 2, 3, False, GREY), each)
    show("pack: the top field first", "pack 2 2 3 --top", GREY, pack(2, 2, 3, True, GREY))
    show("pack: no frames", "pack 2 2 3", b"", pack(2, 2, 3, False, b""))
    show("pack: two frames", "pack 1 1 8", bytes(range(6)), pack(1, 1, 8, False, bytes(range(6))))
    for code in RATES:
        show(f"pack: rate {code}", f"pack 3 1 {code}", bytes(7), pack(3, 1, code, False, bytes(7)))
    for extra in (1, 5, 7):
        show(f"pack: {extra} bytes", "pack 2 2 3", bytes(extra), pack(2, 2, 3, False, bytes(extra)))
    for w, h, code in ((0, 2, 3), (1921, 2, 3), (2, 0, 3), (2, 1153, 3), (2, 2, 0), (2, 2, 9), (0, 0, 0)):
        show(f"pack: unfit {w} {h} {code}", f"pack {w} {h} {code}", GREY, pack(w, h, code, False, GREY))
    for words in ("pack", "pack 2 2", "pack 2 2 x", "pack 2 2 3 4", "pack 2 2 3 --bottom", "pack 2 2 3 --top --top",
                  "unpack x", "unpack --top"):
        show("words: " + words, words, GREY, (2, "usage", b""))
    for number, (name, text) in enumerate(texts()):
        for each in (None, "input", "output", "report") if number < 2 else (None,):
            show("unpack: " + name, "unpack", text, unpack(text), each)
    import y4m_cases
    print("\n".join(y4m_cases.table()))


if __name__ == "__main__":
    main()
