"""Words read from the user, and sentences for him."""


class Wrong(Exception):
    """There is no whole answer: a file, the program or its answer is not what it should be."""


class Refused(Wrong):
    """The hall or the job can't be planned; the sentence says why."""


def shown(word):
    """A word of the user's, short enough for a sentence and with no character that can't be printed."""
    text = "".join(c if c.isprintable() else "?" for c in word)
    return text if len(text) <= 40 else text[:37] + "..."


def text_of(path, most=1 << 22):
    """A text file's contents, as UTF-8."""
    with open(path, "rb") as file:
        data = file.read(most + 1)
    if len(data) > most:
        raise Refused(f"{path} is longer than {most:,} bytes")
    try:
        return data.decode("utf-8-sig")
    except UnicodeDecodeError as error:
        raise Refused(f"{path} is not UTF-8 text: byte {error.start + 1} is {data[error.start]:02X} in hexadecimal") from None


def whole(text):
    try:
        return int(text)
    except ValueError:
        raise Refused(f"{shown(text)} is not a whole number") from None


def ends(text):
    """A cost's low and high end: `3..7`, or a whole number, which is both."""
    if ".." not in text:
        return whole(text), whole(text)
    try:
        low, high = map(int, text.split(".."))
    except ValueError:
        raise Refused(f"{shown(text)} is no range of two whole numbers, as 3..7 is") from None
    if low > high:
        raise Refused(f"the range {shown(text)} has its low end above its high end")
    return low, high


def count(what, text, least, most):
    value = whole(text)
    if not least <= value <= most:
        raise Refused(f"the {what} is {shown(text)}; it is from {least} to {most:,}")
    return value


def real(text):
    try:
        return float(text)
    except ValueError:
        raise Refused(f"{shown(text)} is not a number") from None


def counted(many, what):
    return f"{many:,} {what}" if many == 1 else f"{many:,} {what}s"
