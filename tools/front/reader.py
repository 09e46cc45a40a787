"""Reads a line of a script from left to right, up to the first byte that does not fit."""
import difflib
import re

NUMBER = "a number in decimal"
MOST_BYTES = 256
TOO_LONG = f"a line has at most {MOST_BYTES} bytes before its LF"


class Wrong(Exception):
    """What is wrong at a place of a text, which is counted from 0."""

    def __init__(self, at, text):
        super().__init__(text)
        self.at, self.text = at, text


class Reader:
    """A text that is read from left to right."""

    def __init__(self, text, at=0):
        self.text, self.at = text, at

    def word(self):
        """The bytes up to the next blank, or to the end."""
        return self.text[self.at:].partition(" ")[0]

    def is_done(self):
        return self.at == len(self.text)

    def blank(self, expected):
        """The one blank before what is expected, which has to follow."""
        if self.is_done():
            raise Wrong(self.at, f"the line ends; expected {expected}")
        if self.text[self.at] != " ":
            raise Wrong(self.at, f"{strange(self.text[self.at])}; expected a blank")
        if self.text[self.at:].strip(" ") == "":
            raise Wrong(self.at, "a blank at the end of the line")
        if self.text[self.at + 1] == " ":
            raise Wrong(self.at + 1, "two blanks; expected one")
        self.at += 1

    def number(self, what, hexadecimal=None, ends=" "):
        """Reads a number, up to one of these ends; in hexadecimal too (None), never (False), or
        always (True)."""
        word = re.match(f"[^{ends}]*", self.text[self.at:])[0]
        reason = number_fault(word, what, hexadecimal)
        if reason:
            raise Wrong(self.at + reason[0], reason[1])
        self.at += len(word)
        return int(word, 0)

    def fixed(self, text, expected=None):
        """Reads this text."""
        if not self.text.startswith(text, self.at):
            raise Wrong(self.at, f"{self.here()}; expected {expected or repr(text)}")
        self.at += len(text)

    def here(self):
        """What is at this place, in words."""
        if self.is_done():
            return "the line ends"
        word = self.word()
        return repr(word) if word.isprintable() and word.isascii() and word else strange(self.text[self.at])


def strange(letter):
    """A letter where it cannot be, in words."""
    names = {"\t": "a tab", "\r": "a carriage return (lines end with LF alone, and not with CRLF)",
             " ": "a blank", "\ufeff": "a byte order mark", "\0": "a zero byte"}
    if letter in names:
        return names[letter]
    return f"'{letter}'" if letter.isascii() and letter.isprintable() else "a byte outside ASCII"


def number_fault(word, what, hexadecimal):
    """Where a word is no number, and why; nothing if it is one."""
    form = {None: f"{NUMBER}, or in hexadecimal as 0x1f", False: NUMBER,
            True: "a number in hexadecimal, as 0x1f"}[hexadecimal]
    bad = re.search(r"[^ -~]", word)
    if bad:
        return bad.start(), f"{strange(bad[0])}; expected {what}"
    if word.startswith("#"):
        return 0, "a comment needs a line of its own, and cannot follow an event"
    if word.startswith("0X"):
        return 1, "a capital X: hexadecimal begins with 0x"
    if re.fullmatch(r"0x[0-9a-fA-F]+", word) and hexadecimal is not False:
        return None if len(word) <= 18 else (18, f"{what} has more than 16 digits")
    if hexadecimal is not True and re.fullmatch(r"0|[1-9][0-9]*", word):
        return None if int(word) < 2 ** 64 else (0, f"{what} is above {2 ** 64 - 1}")
    if hexadecimal is not True and re.fullmatch(r"0[0-9]+", word):
        return 0, f"{what} begins with a zero"
    return 0, f"{repr(word) if word else 'nothing'}; expected {what}, {form}"


def end_of(reader):
    """Nothing follows what was read."""
    if reader.is_done():
        return
    reader.blank("the end")
    if reader.word().startswith("#"):
        raise Wrong(reader.at, "a comment needs a line of its own, and cannot follow an event")
    raise Wrong(reader.at, "a word too many: expected the end of the line")


def near(word, names):
    """The name that is most like a word, alone in a list; an empty one where none is."""
    return difflib.get_close_matches(word, names, 1)


def pointed(line, at):
    """The line, or the part of it round this place, and a caret below it."""
    begin = max(at - 60, 0)
    part = "".join(it if " " <= it <= "~" else "?" for it in line[begin:begin + 100])
    return [f"    {part}", " " * (4 + at - begin) + "^"] if part else []
