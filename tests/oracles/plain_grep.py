"""A plain model of `litgrep`: it selects lines by matching each pattern in turn."""


def lines_of(text):
    """The lines of a text, without their newlines."""
    lines = text.split(b"\n")
    return lines if lines[-1] else lines[:-1]


def is_match(line, patterns, flags):
    """Whether a line holds one of the patterns, or is one."""
    if "i" in flags:
        line, patterns = line.lower(), [pattern.lower() for pattern in patterns]
    return any(line == pattern if "x" in flags else pattern in line for pattern in patterns)


def selected(text, patterns, flags):
    """The selected lines of a text, each with its number, from 1."""
    numbered = enumerate(lines_of(text), 1)
    return [(number, line) for number, line in numbered if is_match(line, patterns, flags) != ("v" in flags)]


def answer(texts, patterns, flags):
    """The status, output and messages of a search of texts by their names. A text without a name is the only one."""
    output = []
    is_found = False
    for name, text in texts.items():
        lines = selected(text, patterns, flags)
        is_found |= bool(lines)
        front = name + b":" if name else b""
        if "q" in flags:
            continue
        if "l" in flags:
            output += [(name or b"(standard input)") + b"\n"] * bool(lines)
        elif "c" in flags:
            output.append(front + b"%d\n" % len(lines))
        else:
            output += [front + (b"%d:" % number if "n" in flags else b"") + line + b"\n" for number, line in lines]
    return 0 if is_found else 1, b"".join(output), b""
