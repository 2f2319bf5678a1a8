"""Well-formed UTF-8, by Python's strict decoder: the Unicode Standard's table of byte sequences."""


def ill_formed(text):
    """The place of the first ill-formed sequence of a text, or None."""
    try:
        text.decode("utf-8")
    except UnicodeDecodeError as e:
        return e.start
    return None


def ill_formed_words(text):
    """What is wrong with a text, in a sentence, or None."""
    try:
        text.decode("utf-8")
    except UnicodeDecodeError as e:
        if e.reason == "unexpected end of data":
            return f"badly formed text: it ends inside of the character at its byte {e.start} ({text[e.start:].hex(' ').upper()})"
        return f"badly formed text: no character of UTF-8 stands at its byte {e.start} ({text[e.start]:02X})"
    return None
