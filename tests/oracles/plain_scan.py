"""A plain model of `litplan scan`: it compares each slice of a text with each literal."""


def plain_scan(literals, text, is_folded):
    """The lines for all literals and ends: by end, then by literal."""
    text = text.lower() if is_folded else text
    ends = ((place, end) for end in range(1, len(text) + 1) for place in range(len(literals)))
    return b"".join(b"%d %d\n" % (place, end) for place, end in ends if text[:end].endswith(literals[place]))
