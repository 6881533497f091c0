"""Random searches, lists and certificates, the same in each run. Programs are compared with plain models on them."""

import random

from oracles import plain_plan

LETTERS = b"aaaabbbAABBcc\n\n\n"
SIZES = [1, 2, 3, 5, 23, 4096]
LENGTHS = [0, 1, 40, 62, 63, 64, 65, 126, 127, 128, 129, 200]


def text_of(source, letters, most):
    """A text of some letters, `most` of them at most."""
    return bytes(source.choices(letters, k=source.randrange(most + 1)))


def small_searches():
    """Up to five patterns of a few letters, some of them null; flags; and small texts."""
    source = random.Random(1)
    for _ in range(200):
        patterns = [text_of(source, b"aabbABc", 4) for _ in range(source.randrange(6))]
        flags = "".join(flag for flag in "ixvn" if source.random() < 0.4)
        yield patterns, flags, [text_of(source, LETTERS, 40) for _ in range(12)]


def long_searches():
    """Lists of one to a thousand words, flags, and longer texts of the same letters."""
    source = random.Random(2)
    for count in [1, 2, 3, 5, 8, 9, 20, 100, 1000] * 6:
        patterns = [b"a"[: source.randrange(2)] + text_of(source, b"abcdefghij", 7) for _ in range(count)]
        patterns = [pattern or b"j" for pattern in patterns]
        flags = "".join(flag for flag in "ixvn" if source.random() < 0.3)
        letters = b"abcdefghij" * source.choice([1, 3]) + b"AJ.\0\xff\n"
        yield patterns, flags, [text_of(source, letters, 3000) for _ in range(4)]


def whole_lines():
    """Lists of one to thirty words, flags with `x`, and texts of lines. Lines that are a word, or hold a word, stand close
    together or far apart; some are far longer than a word."""
    source = random.Random(6)
    for number in range(60):
        patterns = [text_of(source, b"abAB", 6) + b"z" for _ in range(source.choice([1, 1, 2, 10, 30]))]
        patterns += [b""] * (number % 5 == 0)
        flags = "x" + "".join(flag for flag in "ivn" if source.random() < 0.4)
        ends, others = [b"", b"", b"q", b"A", b"y" * 150], [b"", b"c" * 70, b"c" * 600]
        hits, misses = source.choice([(60, 0), (60, 10), (8, 30)])
        texts = []
        for _ in range(3):
            lines = [source.choice(ends) + source.choice(patterns) + source.choice(ends) for _ in range(hits)]
            lines += source.choices(others, k=misses)
            source.shuffle(lines)
            texts.append(b"\n".join(lines) + source.choice([b"", b"\n"]))
        yield patterns, flags, texts


def near_miss_searches():
    """Lists of words of 1 to 20 bytes, flags, and texts of words, most of them near-misses."""
    source = random.Random(5)
    for shortest in [1, 2, 4, 4, 5, 7, 8, 9, 12] * 4:
        words = [bytes(source.choices(b"abcdeABC@`", k=source.randrange(shortest, 21))) for _ in range(source.choice([5, 40, 300]))]
        yield words, "i" * source.randrange(2), [near_miss_text(source, words) for _ in range(3)]


def near_miss_text(source, words):
    """Lines of words. Most words have one byte changed, or one letter in the other case; some are whole."""
    near = []
    for word in source.choices(words, k=300):
        place, change = source.randrange(len(word)), source.choice([1, 1, 2, 3, 32]) if source.random() < 0.97 else 0
        near.append(word[:place] + bytes([word[place] ^ change]) + word[place + 1 :] + source.choice([b"", b".", b"\n"]))
    return b"".join(near)


def long_lines():
    """Texts with one line that holds an `a`, after and before each of some numbers of bytes; each with a size of pieces."""
    source = random.Random(3)
    for before in LENGTHS:
        for after in LENGTHS:
            text = b"c" * 100 + b"\n" + b"b" * before + b"a" + b"b" * after + b"\n" + b"c" * 130 + b"\n"
            yield text, source.choice([5, 23, 64, 127, 128, 4096])


def open_lines():
    """Lists of up to eight words, with the null pattern at times; flags; and texts of few newlines, some of them whole words.
    Each comes with a size of pieces, so that most lines come in many pieces."""
    source = random.Random(7)
    for number in range(400):
        patterns = [text_of(source, b"aabAB", source.choice([0, 1, 3, 6])) + b"c" for _ in range(source.choice([1, 1, 2, 8]))]
        patterns += [b""] * (number % 9 == 0)
        flags = "".join(flag for flag in "ixvn" if source.random() < 0.4) + source.choice("cccql")
        parts = [source.choice(patterns) if source.random() < 0.2 else text_of(source, b"aaabbABc", 9) for _ in range(20)]
        text = b"".join(part + source.choice([b"", b"", b"", b"\n"]) for part in parts)
        yield patterns, flags, text[: source.choice([30, 90, 200])], source.choice([1, 2, 3, 7, 23])


def lists(most=100):
    """This number of lists of patterns, whose literals have few lengths or many, and whether case is ignored."""
    source = random.Random(4)
    for number in range(most):
        count, longest = source.randrange(1, 12 if number < most * 7 // 10 else 50), source.choice([1, 2, 4, 11])
        patterns = [text_of(source, b"abAB01", longest - 1) + b"z" for _ in range(count)]
        yield patterns, source.random() < 0.5


def long_lists():
    """Ten lists of 200 to 400 different patterns, of lengths up to 4, 8, 12 or 30, and whether case is ignored."""
    source = random.Random(8)
    for number in range(10):
        count, longest, patterns = source.randrange(200, 401), [4, 8, 12, 30][number % 4], {}
        while len(patterns) < count:
            pattern = bytes(source.choices(b"abcdefgAB01", k=source.randrange(1, longest + 1)))
            patterns[pattern.lower()] = pattern
        yield list(patterns.values()), number % 2 == 1


def changed_numbers(source, certificate):
    """A certificate with one number changed."""
    ends, price, rows = list(certificate[0]), certificate[1], [list(row) for row in certificate[2]]
    step = source.choice([1, -1, 1, -1, 2, -100, 1000])
    where = source.randrange(10)
    if where == 0:
        price = max(price + step, 0)
    elif where < 3:
        at = source.randrange(len(ends))
        ends[at] = max(ends[at] + step, 0)
    else:
        row = source.choice(rows)
        at = source.randrange(len(row))
        row[at] = max(row[at] + step, 0)
    return ends, price, rows


def changed_text(source, text):
    """A text with one byte changed, left out or put in, or cut off."""
    at = source.randrange(len(text))
    byte = bytes([source.choice(b"0159 \nx+\xff")])
    return source.choice([text[:at] + byte + text[at + 1 :], text[:at] + text[at + 1 :], text[:at] + byte + text[at:], text[:at]])


def certificates(source, certificate):
    """Texts of a certificate: the right one, some with one number changed, and if it is short some with other bytes."""
    text = plain_plan.spelled(certificate)
    changed = [plain_plan.spelled(changed_numbers(source, certificate)) for _ in range(3)]
    others = [changed_text(source, text) for _ in range(6)]
    return [text, *changed, *(others if len(text) < 500 else [])]
