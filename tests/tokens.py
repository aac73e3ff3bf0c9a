"""Tokens and a reader of them: what the plain readers of programs and of set files share."""


class Token:
    """A piece of a text. A name that is one of the reserved words is a word."""

    def __init__(self, kind, text, at, reserved):
        self.kind = "word" if kind == "name" and text.decode() in reserved else kind
        self.text = text
        self.at = at

    def is_sign(self, text):
        return self.kind in ("word", "symbol") and self.text == text


class TokenReader:
    def __init__(self, found):
        self.found = found
        self.next = 0

    def token(self):
        return self.found[self.next]

    def sees(self, *texts):
        return any(self.token().is_sign(text) for text in texts)
