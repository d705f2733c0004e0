#!/usr/bin/env python3
"""The tokens of styles by CSS Syntax Level 3, section 4, which is written here from the standard alone.

    bench/css_tokens.py < PAGE

Prints the tokens of each attribute `style` and of each element `style` of a page, a style per line. `bench/hostile` compares the
structure of styles by it: the tokens that are no words, numbers, signs and white space.
"""
import html.parser
import re
import sys

NAME_START = re.compile("[A-Za-z_\u0080-\U0010ffff]")
NAME = re.compile("[A-Za-z0-9_\\-\u0080-\U0010ffff]")
NUMBER = re.compile(r"[+-]?(?:[0-9]+(?:\.[0-9]+)?|\.[0-9]+)(?:[eE][+-]?[0-9]+)?")
HEX = "0123456789abcdefABCDEF"
SINGLE = "()[]{},:;"
RUNS = {  # of characters that stand for themselves: in a name, in each kind of string, and in a URL
    "name": re.compile("[A-Za-z0-9_\\-\u0080-\U0010ffff]*"),
    '"': re.compile(r'[^"\\\n]*'),
    "'": re.compile(r"[^'\\\n]*"),
    "url": re.compile("[^\0-\x1f\x7f \"'()\\\\]*"),
}
CONTROL = [chr(c) for c in (*range(9), 11, *range(14, 32), 127)]  # code points that are not printable (4.2)

# What is no part of the structure of a style: such tokens side by side are words, of which data may make more.
WORDS = ["ident", "hash", "number", "percentage", "dimension", "delim", "colon", "comma", "white", "cdo", "cdc"]


class Tokenizer:
    """Reads one style. A token is its kind and its text: the name, the string or the URL, with escapes undone."""

    def __init__(self, text):
        self.text = re.sub("\r\n|\r|\f", "\n", text).replace("\0", "\ufffd")  # section 3.3
        self.at = 0

    def peek(self, ahead=0):
        return self.text[self.at + ahead:self.at + ahead + 1]

    def tokens(self):
        found = []
        while self.at < len(self.text):
            if self.text.startswith("/*", self.at):
                end = self.text.find("*/", self.at + 2)
                self.at = len(self.text) if end < 0 else end + 2
                found.append(("comment", ""))  # no token of CSS, but part of the structure
            else:
                found.append(self.token())
        return found

    def token(self):
        one = self.peek()
        if one in "\n\t ":
            while self.peek() and self.peek() in "\n\t ":
                self.at += 1
            return "white", " "
        if one in "\"'":
            return self.string()
        if one in SINGLE:
            self.at += 1
            return {",": "comma", ":": "colon"}.get(one, one), one
        if NUMBER.match(self.text, self.at) and one in "+-.0123456789":
            return self.number()
        if self.text.startswith(("-->", "<!--"), self.at):
            self.at += 3 if one == "-" else 4
            return "cdc" if one == "-" else "cdo", ""
        if self.begins_name(0):
            return self.word()
        self.at += 1
        if one == "#" and (NAME.match(self.peek()) or self.is_escape(0)):
            return "hash", self.name()
        if one == "@" and self.begins_name(0):
            return "@", self.name()
        return "@" if one == "@" else "delim", one

    def is_escape(self, ahead):
        return self.peek(ahead) == "\\" and self.peek(ahead + 1) != "\n" and self.peek(ahead + 1) != ""

    def begins_name(self, ahead):
        if self.peek(ahead) == "-":
            return bool(NAME_START.match(self.peek(ahead + 1))) or self.peek(ahead + 1) == "-" or self.is_escape(ahead + 1)
        return bool(NAME_START.match(self.peek(ahead))) or self.is_escape(ahead)

    def escaped(self):
        """What stands behind a backslash (4.3.7)."""
        digits = re.compile("[0-9a-fA-F]{1,6}").match(self.text, self.at)
        if not digits:
            self.at += 1
            return self.text[self.at - 1:self.at] or "\ufffd"
        self.at = digits.end()
        if self.peek() and self.peek() in "\n\t ":
            self.at += 1
        code = int(digits[0], 16)
        return "\ufffd" if code == 0 or 0xD800 <= code <= 0xDFFF or code > 0x10FFFF else chr(code)

    def run(self, kind):
        """The longest run of such characters from here on, which is passed."""
        found = RUNS[kind].match(self.text, self.at)
        self.at = found.end()
        return found[0]

    def name(self):
        read = self.run("name")
        while self.is_escape(0):
            self.at += 1
            read += self.escaped() + self.run("name")
        return read

    def number(self):
        self.at = NUMBER.match(self.text, self.at).end()
        if self.begins_name(0):
            return "dimension", self.name()
        self.at += self.peek() == "%"
        return "number", ""

    def word(self):
        name = self.name()
        if self.peek() != "(":
            return "ident", name
        self.at += 1
        if name.lower() == "url" and not re.compile("[\n\t ]*[\"']").match(self.text, self.at):
            return self.url()
        return "function", name.lower()

    def string(self):
        quote = self.peek()
        self.at += 1
        read = self.run(quote)
        while self.peek() and self.peek() != quote:
            if self.peek() == "\n":
                return "bad string", read
            self.at += 1  # behind a backslash
            if self.peek() == "\n":
                self.at += 1
            elif self.peek():
                read += self.escaped()
            read += self.run(quote)
        self.at += 1
        return "string", read

    def url(self):
        read = ""
        while self.peek() and self.peek() in "\n\t ":
            self.at += 1
        while self.peek() and self.peek() != ")":
            if self.peek() in "\n\t ":
                while self.peek() and self.peek() in "\n\t ":
                    self.at += 1
                if self.peek() not in ("", ")"):
                    return self.bad_url()
            elif self.peek() in "\"'(" or self.peek() in CONTROL or self.peek() == "\\" and not self.is_escape(0):
                return self.bad_url()
            elif self.peek() == "\\":
                self.at += 1
                read += self.escaped()
            else:
                read += self.run("url")
        self.at += 1
        return "url", read

    def bad_url(self):
        while self.peek() and self.peek() != ")":
            escaped = self.is_escape(0)
            self.at += 1
            if escaped:
                self.escaped()
        self.at += 1
        return "bad url", ""


def structure(style):
    """The tokens of a style but its words; a `url(` in quotes is one token, as without them."""
    found = [token for token in Tokenizer(style).tokens() if token[0] not in WORDS]
    kept = []
    for kind, text in found:
        if kind == "string" and kept and kept[-1] == ("function", "url"):
            kept[-1] = ("url(", "")
            kind = "url"
        kept.append((kind, text))
    return kept


class StyleReader(html.parser.HTMLParser):
    """Prints the tokens of each attribute `style` and of each element."""

    content = None  # of the element `style` that is open, whose content `html.parser` gives as it stands

    def handle_starttag(self, tag, attrs):
        for name, value in attrs:
            if name == "style":
                print(tag, Tokenizer(value or "").tokens())
        self.content = "" if tag == "style" else None

    def handle_data(self, data):
        if self.content is not None:
            self.content += data

    def handle_endtag(self, tag):
        if self.content is not None:
            print("style", Tokenizer(self.content).tokens())
        self.content = None


if __name__ == "__main__":
    StyleReader().feed(sys.stdin.buffer.read().decode(errors="replace"))
