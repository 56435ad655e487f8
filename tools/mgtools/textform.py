"""The text form of graph files, each field with its place: docs/TEXT_FORMAT.md says the grammar.

A place is a number of bytes from the start of the file, as in the notes of `mg`.
"""
from __future__ import annotations

import re
from dataclasses import dataclass, field as attribute

DEEPEST = 64
BLANK = re.compile(rb"(?:[ \t\n\r\v\f]|#[^\n]*(?:\n|\Z))*")
WORD = re.compile(rb"[A-Za-z_][A-Za-z0-9_]*")
NUMBER = re.compile(rb"-?(?:0[xX][0-9a-fA-F]+|(?:[0-9]+(?:\.[0-9]+)?|\.[0-9]+)(?:[eE][+-]?[0-9]+)?[fF]?)")
PIECE = re.compile(rb"[^\n\\\"']+")
ESCAPES = {"n": "\n", "t": "\t", "r": "\r", "\\": "\\", "'": "'", '"': '"'}
CLOSING = {"{": "}", "<": ">"}


@dataclass
class Scalar:
    """A word, a number or a quoted text. `text` is what it says, `at` and `end` where it stands."""
    kind: str
    text: str
    at: int
    end: int


@dataclass
class Field:
    """A field: its name, its place, and a scalar or the fields of a message. `end` is behind its value."""
    name: str
    at: int
    value: Scalar | list[Field] | None = None
    end: int = 0

    @property
    def fields(self) -> list[Field]:
        """The fields of its message; none of a scalar."""
        return self.value if isinstance(self.value, list) else []

    @property
    def text(self) -> str | None:
        """What its quoted text says, or nothing where it has another value."""
        return self.value.text if isinstance(self.value, Scalar) and self.value.kind == "text" else None

    def all_of(self, name: str) -> list[Field]:
        return [inner for inner in self.fields if inner.name == name]


@dataclass
class TextFault(Exception):
    """The file is no text: what stands at `at` can't be there. `wanted` says what could, `opened` where what is still open began."""
    at: int
    wanted: str
    opened: list[tuple[str, int]] = attribute(default_factory=list)

    def __str__(self) -> str:
        return f"at byte {self.at}: {self.wanted}"


class Reader:
    """Reads a text from its start, token by token."""

    def __init__(self, data: bytes):
        self.data = data
        self.at = 0
        self.opened: list[tuple[str, int]] = []

    def fault(self, wanted: str, at: int | None = None) -> TextFault:
        return TextFault(self.at if at is None else at, wanted, list(self.opened))

    def blank(self) -> None:
        self.at = BLANK.match(self.data, self.at).end()

    def peek(self) -> str:
        """The next character after white space and comments, or nothing at the end."""
        self.blank()
        return self.data[self.at:self.at + 1].decode("latin-1")

    def take(self, mark: str) -> bool:
        if self.peek() != mark:
            return False
        self.at += 1
        return True

    def name(self) -> str:
        """A word, or a name in brackets."""
        begin = self.at
        if self.take("["):
            slashes = 0
            while True:
                word = WORD.match(self.data, self.at)
                if not word:
                    raise self.fault("a word of the name in brackets")
                self.at = word.end()
                mark = self.data[self.at:self.at + 1]
                slashes += mark == b"/"
                if mark == b"]":
                    self.at += 1
                    return self.data[begin:self.at].decode()
                if mark != b"." and (mark != b"/" or slashes > 1):
                    raise self.fault("a point, or the bracket that closes the name")
                self.at += 1
        word = WORD.match(self.data, self.at)
        self.at = word.end()
        return word[0].decode()

    def scalar(self) -> Scalar:
        begin, mark = self.at, self.peek()
        if mark in ('"', "'") and mark:
            return self.quoted(begin)
        word = WORD.match(self.data, self.at)
        if word:
            self.at = word.end()
            return Scalar("word", word[0].decode(), begin, self.at)
        number = NUMBER.match(self.data, self.at)
        if not number:
            # A minus or a point may begin a number, so the fault lies behind it.
            self.at += len(re.match(rb"-?\.?", self.data[self.at:self.at + 2])[0])
            raise self.fault("a value: a number, a word, or a text in quotes")
        self.at = number.end()
        if re.match(rb"[A-Za-z0-9_.]", self.data[self.at:self.at + 1]):
            raise self.fault("the end of the number, which no letter, digit or point may follow")
        return Scalar("number", number[0].decode(), begin, self.at)

    def quoted(self, begin: int) -> Scalar:
        """A text of one or more pieces in quotes."""
        text, end = "", begin
        while self.peek() in ('"', "'") and self.at < len(self.data):
            text += self.piece()
            end = self.at
        self.at = end
        return Scalar("text", text, begin, end)

    def piece(self) -> str:
        opened = self.at
        quote = self.data[self.at:self.at + 1]
        self.at += 1
        text = ""
        while True:
            run = PIECE.match(self.data, self.at)
            if run:
                try:
                    text += run[0].decode()
                except UnicodeDecodeError as fault:
                    raise self.fault("characters in UTF-8", self.at + fault.start) from None
                self.at = run.end()
            mark = self.data[self.at:self.at + 1]
            if mark == quote:
                self.at += 1
                return text
            if mark in (b"", b"\n"):
                raise TextFault(self.at, f"the quote {quote.decode()} that ends the text", [*self.opened, ("a text in quotes", opened)])
            self.at += 1
            text += self.escaped() if mark == b"\\" else mark.decode()

    def escaped(self) -> str:
        mark = self.data[self.at:self.at + 1].decode("latin-1")
        if mark in ESCAPES and mark:
            self.at += 1
            return ESCAPES[mark]
        for digit, digits in enumerate((b"01", b"01234567", b"01234567")):
            if self.data[self.at:self.at + 1] not in [bytes([one]) for one in digits]:
                if digit == 0:
                    raise self.fault(r"one of the escapes \n \t \r \\ \' \" or three octal digits from \000 to \177")
                raise self.fault("an octal digit")
            self.at += 1
        return chr(int(self.data[self.at - 3:self.at], 8))

    def message(self, mark: str, name: str, begin: int) -> list[Field]:
        """The fields of a message behind its opening mark."""
        if len(self.opened) == DEEPEST:
            raise TextFault(self.at - 1, "no further message: 64 are open at once", list(self.opened))
        self.opened.append((f"{name} {mark}", begin))
        fields = self.fields(CLOSING[mark])
        self.opened.pop()
        return fields

    def fields(self, closing: str) -> list[Field]:
        """Fields up to the mark that closes them, or to the end where there is none."""
        found: list[Field] = []
        while True:
            mark = self.peek()
            if mark == closing:
                self.at += len(closing)
                return found
            if not (mark == "[" or WORD.match(self.data, self.at)):
                raise self.fault(f"a field, or {closing}" if closing else "a field")
            found += self.field()

    def field(self) -> list[Field]:
        """One field, as many as a list has elements."""
        self.blank()
        begin = self.at
        name = self.name()
        colon = self.take(":")
        mark = self.peek()
        if mark == "[":
            found = self.elements(name, begin, colon)
        elif mark in CLOSING and mark:
            self.at += 1
            found = [Field(name, begin, self.message(mark, name, begin), self.at)]
            found[0].end = self.at
        elif colon:
            value = self.scalar()
            found = [Field(name, begin, value, value.end)]
        else:
            raise self.fault("a colon and a value, or { and fields")
        if self.peek() in (",", ";") and self.at < len(self.data):
            self.at += 1
        return found

    def elements(self, name: str, begin: int, colon: bool) -> list[Field]:
        """The elements of a list as fields of its name: all scalars, or all messages."""
        self.take("[")
        self.opened.append((f"the list of {name}", begin))
        found: list[Field] = []
        depth = len(self.opened)
        messages: bool | None = None if colon else True
        if not self.take("]"):
            while True:
                mark = self.peek()
                begin = begin if not found else self.at
                if mark in CLOSING and mark and messages is not False:
                    self.at += 1
                    self.opened.pop()
                    found.append(Field(name, begin, self.message(mark, name, begin), self.at))
                    self.opened.append((f"the list of {name}", begin))
                    messages = True
                elif messages:
                    raise self.fault("a message")
                else:
                    value = self.scalar()
                    found.append(Field(name, begin, value, value.end))
                    messages = False
                found[-1].end = self.at
                if self.take("]"):
                    break
                if not self.take(","):
                    raise self.fault("a comma, or the bracket that closes the list")
        del self.opened[depth - 1:]
        return found


def parse(data: bytes) -> list[Field]:
    """The fields of a text; raises TextFault where it is none."""
    reader = Reader(data)
    fields = reader.fields("")
    return fields


def line_and_column(data: bytes, at: int) -> tuple[int, int]:
    """The line and the column of a byte, both from 1. Columns count characters."""
    begin = data.rfind(b"\n", 0, at) + 1
    return data.count(b"\n", 0, at) + 1, len(data[begin:at].decode(errors="replace")) + 1
