"""The smallest case that shows a difference: words and bytes are left out while the two sides still part."""

AT_MOST = 60  # rounds


def smaller(line):
    """The case with a word less, some bytes less, or a byte made plain."""
    *words, unit = line.split()
    for i in range(len(words)):
        yield " ".join(words[:i] + words[i + 1 :] + [unit])
    raw = b"" if unit == "-" else bytes.fromhex(unit)
    front = "".join(w + " " for w in words)
    for n in (16, 4, 1):
        for i in range(0, len(raw), n):
            yield front + ((raw[:i] + raw[i + n :]).hex() or "-")
    for i, b in enumerate(raw[:64]):
        for plain in (0xFF, 0x80, 0):
            if b != plain and b not in (0xFF, 0x80, 0):
                yield front + (raw[:i] + bytes([plain]) + raw[i + 1 :]).hex()


def shrunk(sides, case, parts):
    """parts: whether a compared case is a difference of the kind that is looked for."""
    for _ in range(AT_MOST):
        found = next((c for c in sides.compared(list(smaller(case.line)) or [case.line]) if parts(c) and c.line != case.line), None)
        if not found:
            break
        case = found
    return case
