"""How contents, and the differences between two of them, are told in a message."""


def shown(content, most=80):
    """Bytes for a message, cut where they are long."""
    return repr(content) if len(content) <= most else f"{content[:most]!r}... ({len(content)} bytes)"


def differences(unit, expected, got):
    """Says which of the units, words or bytes, are not the expected ones."""
    wrong = [at for at in range(len(expected)) if got[at] != expected[at]]
    told = ", ".join(f"{unit} {at} expected {expected[at]} got {got[at]}" for at in wrong[:8])
    return told + (f" and {len(wrong) - 8} more" if len(wrong) > 8 else "")
