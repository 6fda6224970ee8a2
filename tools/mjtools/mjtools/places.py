"""On which line of a TOML file a key stands. The standard reader of TOML tells no places."""

import re

TOKEN = re.compile(
    r"""(?P<pass>[ \t\r]+|\#[^\n]*)|(?P<feed>\n)
    |(?P<text>\"{3}.*?\"{3}|'{3}.*?'{3}|"(?:\\.|[^"\\\n])*"|'[^'\n]*')
    |(?P<mark>[\[\]{},=.])|(?P<bare>[^\s\[\]{},=."'\#]+)|(?P<other>.)""",
    re.VERBOSE | re.DOTALL,
)


def places(text):
    """The line, from 1, of each key and table of a TOML document, by its path as `mj` tells it: body[2].joint[1].axis.

    A text that is no TOML gives the places up to its fault.
    """
    walk = _Walk(text)
    try:
        walk.document()
    except IndexError:
        pass
    return walk.lines


def line_of(text, path):
    """The line of the key at this path; where the key is missing, that of its table. None where there is neither."""
    known = places(text)
    while path:
        if path in known:
            return known[path]
        path = path.rpartition(".")[0]
    return None


class _Walk:
    """A walk over a document's tokens; `lines` fills up."""

    def __init__(self, text):
        self.lines = {}
        self._tokens = []
        self._counts = {}
        line = 1
        for found in TOKEN.finditer(text):
            if found.lastgroup != "pass":
                self._tokens.append((found.lastgroup, found[0], line))
            line += found[0].count("\n")
        self._at = 0

    def _peek(self):
        return self._tokens[self._at][1]

    def _next(self):
        self._at += 1
        return self._tokens[self._at - 1]

    def _skip_feeds(self):
        while self._tokens[self._at][0] == "feed":
            self._at += 1

    def document(self):
        """Walks to the end, which is an IndexError, as a fault of the text is."""
        prefix = ""
        while True:
            self._skip_feeds()
            if self._peek() == "[":
                prefix = self._header()
            else:
                self._pair(prefix)

    def _header(self):
        """A header [a.b] or [[a.b]]: the path of its table."""
        line = self._next()[2]
        is_item = self._peek() == "["
        if is_item:
            self._next()
        words = self._words("]")
        if is_item:
            self._next()
        path = ""
        for place, word in enumerate(words):
            path = f"{path}.{word}" if path else word
            if is_item and place == len(words) - 1:
                self._counts[path] = self._counts.get(path, 0) + 1
            if path in self._counts:
                path = f"{path}[{self._counts[path]}]"
        self.lines.setdefault(path, line)
        return path

    def _words(self, end):
        """The words of a dotted key, up to the mark behind it."""
        words = []
        while (token := self._next())[1] != end:
            if token[0] == "feed":
                raise IndexError
            if token[1] != ".":
                words.append(token[1].strip("\"'"))
        return words

    def _pair(self, prefix):
        line = self._tokens[self._at][2]
        path = prefix
        for word in self._words("="):
            path = f"{path}.{word}" if path else word
            self.lines.setdefault(path, line)
        self._value(path)

    def _value(self, path):
        """A value: in tables and arrays what stands in them has paths of its own."""
        if self._peek() == "{":
            self._items(path, "}", lambda place: self._pair(path))
        elif self._peek() == "[":
            self._items(path, "]", lambda place: self._item(f"{path}[{place}]"))
        else:
            while self._peek() not in ",]}\n":
                self._next()

    def _items(self, path, end, read):
        self._next()
        place = 1
        self._skip_feeds()
        while self._peek() != end:
            if self._peek() == ",":
                self._next()
                place += 1
            else:
                read(place)
            self._skip_feeds()
        self._next()

    def _item(self, path):
        self.lines.setdefault(path, self._tokens[self._at][2])
        self._value(path)
