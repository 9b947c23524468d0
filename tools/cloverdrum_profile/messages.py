"""What a message shows of what the user wrote."""

MOST_SHOWN = 80


def excerpt(text: str, most: int = MOST_SHOWN) -> str:
    """The text, or the start of a long one, with control characters escaped."""
    start = "".join(char if char.isprintable() else ascii(char)[1:-1] for char in text[: most + 1])
    return start if len(start) <= most else f"{start[: most - 2]}.."
