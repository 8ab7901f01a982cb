"""The text that upstream's printer makes: its lines, levels and spaces."""
import re

LINES = re.compile(r"[^\n]*\n|[^\n]+")


class Output:
    """Pieces of text, the level of lines, and whether a line has just ended."""

    def __init__(self, text):
        self.pieces, self.level, self.fresh = [text], 0, False

    def write(self, text):
        """Writes a text; a line begins at its level."""
        for line in LINES.findall(text):
            if self.fresh:
                if self.last_but_spaces() not in (None, "\n"):
                    self.pieces.append("\n")
                self.pieces.append("    " * self.level)
            self.pieces.append(line)
            self.fresh = line.endswith("\n")

    def last(self):
        """The last character, or None."""
        return next((piece[-1] for piece in reversed(self.pieces) if piece), None)

    def last_but_spaces(self):
        """The last character that is no space, or None."""
        return next((piece.rstrip(" ")[-1] for piece in reversed(self.pieces) if piece.rstrip(" ")), None)

    def newline(self):
        """Ends the line where something stands in it."""
        if self.last_but_spaces() in (None, "\n"):
            return
        while self.pieces[-1].rstrip(" ") == "":
            self.pieces.pop()
        self.pieces[-1] = self.pieces[-1].rstrip(" ")
        self.write("\n")

    def trim(self):
        """Takes ends of lines away at the end."""
        while self.pieces and self.pieces[-1].rstrip("\n") == "":
            self.pieces.pop()
        if self.pieces:
            self.pieces[-1] = self.pieces[-1].rstrip("\n")

    def space(self):
        """A space where none is."""
        if self.last() not in (None, "\n", " "):
            self.pieces.append(" ")

    def indented(self, write):
        """What is written on lines of their own, one level further in."""
        self.level += 1
        self.newline()
        write()
        self.level -= 1
        self.trim()

    def text(self):
        """All of it."""
        return "".join(self.pieces)
