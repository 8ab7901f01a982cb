"""What the texts of tokens stand for: literals, names and lifetimes."""
import re

SIMPLE = {'"': '"', "n": "\n", "r": "\r", "t": "\t", "\\": "\\", "'": "'"}
HEX = frozenset("0123456789abcdefABCDEF")
FLOATS = ("f16", "f32", "f64", "f128")
INTS = ("i8", "i16", "i32", "i64", "i128", "isize", "u8", "u16", "u32", "u64", "u128", "usize")
RADIX = {"0b": 2, "0o": 8, "0x": 16}


class Fault(Exception):
    """The parser's layer finds a fault in a literal."""


def escape_at(text, at, mode):
    """What the escape whose backslash is in front of `at` stands for, a character or bytes, and where it ends."""
    letter = text[at:at + 1]
    if letter == "0" and mode != "c":
        return "\0", at + 1
    if letter in SIMPLE:
        return SIMPLE[letter], at + 1
    if letter == "x":
        return byte_escape(text, at, mode)
    if letter == "u" and mode != "byte":
        return unicode_escape(text, at, mode)
    raise Fault


def byte_escape(text, at, mode):
    """The byte of two hexadecimal digits behind the `x` at `at`."""
    digits = text[at + 1:at + 3]
    if len(digits) < 2 or not HEX.issuperset(digits):
        raise Fault
    value = int(digits, 16)
    if (mode == "str" and value > 127) or (mode == "c" and value == 0):
        raise Fault
    return (chr(value) if value < 128 else bytes([value])), at + 3


def unicode_escape(text, at, mode):
    """The character whose number stands in braces behind the `u` at `at`."""
    end = text.find("}", at)
    digits = text[at + 2:end] if end >= 0 and text[at + 1:at + 2] == "{" else ""
    if not digits or digits[0] == "_" or not (HEX | {"_"}).issuperset(digits):
        raise Fault
    digits = digits.replace("_", "")
    value = int(digits, 16)
    if len(digits) > 6 or value > 0x10FFFF or 0xD800 <= value <= 0xDFFF or (mode == "c" and value == 0):
        raise Fault
    return chr(value), end + 1


def behind_line_end(text, at):
    """Where a text goes on behind a backslash at the end of a line; an empty line there is a fault, though the compiler only warns."""
    end = at
    while end < len(text) and text[end] in " \t\n\r":
        end += 1
    if "\n" in text[at:end] or (end < len(text) and text[end].isspace()):
        raise Fault
    return end


def unescaped(text, mode):
    """The value of what stands between the quotes, as bytes; raises Fault.

    A text that has plain characters alone and then a line that goes on at its very end stays as written.
    """
    out, at, start, changed = bytearray(), 0, 0, False
    while at < len(text):
        char = text[at]
        if text.startswith("\\\n", at):
            at = behind_line_end(text, at + 2)
            continue
        if char == "\\":
            value, at = escape_at(text, at + 1, mode)
            changed = True
        elif char in '"\r' or (mode == "byte" and char > "\x7f") or (mode == "c" and char == "\0"):
            raise Fault
        else:
            changed = changed or at != start or char > "\x7f"
            value, at = char, at + 1
            if not changed:
                start = at
        out += value if isinstance(value, bytes) else value.encode()
    return bytes(out) if changed or not text else text.encode()


def quoted(token, raw, mode):
    """The value of a text as bytes: between its first and its last quote; empty where it has a fault. `raw` begins one as written."""
    begin, end = token.find('"'), token.rfind('"')
    if begin == end:
        return b""
    inside = token[begin + 1:end]
    if token.startswith(raw):
        return inside.encode()
    try:
        return unescaped(inside, mode)
    except Fault:
        return b""


def single(token, mode):
    """The value of a character or a byte, the character 0 where it has a fault."""
    front = "b'" if mode == "byte" else "'"
    try:
        return character(token[len(front):].removesuffix("'"), mode) if token.startswith(front) else "\0"
    except Fault:
        return "\0"


def character(inside, mode):
    """The one character between quotes; raises Fault."""
    if not inside or inside[0] in "\n\t'\r" or (mode == "byte" and inside[0] > "\x7f"):
        raise Fault
    value, end = escape_at(inside, 1, mode) if inside[0] == "\\" else (inside[0], 1)
    if end != len(inside):
        raise Fault
    return chr(value[0]) if isinstance(value, bytes) else value


def as_text(value):
    """Bytes as a text: as UTF-8 where they are that, else each byte as the character of its number."""
    try:
        return value.decode()
    except UnicodeDecodeError:
        return value.decode("latin-1")


def int_parts(token):
    """Radix, digits and suffix of an integer."""
    radix = RADIX.get(token[:2], 10)
    digits = token if radix == 10 else token[2:]
    found = re.search("[g-zG-Z]" if radix == 16 else "[a-zA-Z]", digits)
    end = found.start() if found else len(digits)
    return radix, digits[:end].replace("_", ""), digits[end:]


def int_value(radix, digits):
    """The number, 0 where it is none or has more than 128 bits."""
    if not digits or any(digit not in "0123456789abcdef"[:radix] for digit in digits.lower()):
        return 0
    value = int(digits, radix)
    return value if value < 1 << 128 else 0


def float_parts(token):
    """Digits and suffix of a fraction: the suffix begins at the first letter, or at the second where the first is that of an exponent."""
    letters = [i for i, char in enumerate(token) if char.isascii() and char.isalpha()]
    if letters and token[letters[0]] in "eE":
        del letters[0]
    return (token[:letters[0]], token[letters[0]:]) if letters else (token, "")


def integer(token):
    """The fields of a literal for an integer, which with the suffix of a fraction is one."""
    radix, digits, suffix = int_parts(token)
    if suffix in FLOATS:
        return "float", digits, suffix
    return "int", str(int_value(radix, digits)), suffix if suffix in INTS else ""


def fraction(token):
    """The fields of a literal for a fraction."""
    digits, suffix = float_parts(token)
    return "float", digits.replace("_", ""), suffix if suffix in FLOATS else ""


LITERALS = {
    "INT_NUMBER": integer,
    "FLOAT_NUMBER": fraction,
    "STRING": lambda token: ("str", quoted(token, "r", "str").decode(), ""),
    "BYTE_STRING": lambda token: ("bytestr", quoted(token, "br", "byte").decode("latin-1"), ""),
    "C_STRING": lambda token: ("cstr", as_text(quoted(token, "cr", "c")), ""),
    "CHAR": lambda token: ("char", single(token, "str"), ""),
    "BYTE": lambda token: ("int", str(ord(single(token, "byte"))), "u8"),
    "TRUE_KW": lambda token: ("bool", "true", ""),
    "FALSE_KW": lambda token: ("bool", "false", ""),
}


def literal(token):
    """What kind of literal a token is, its text, and its suffix, which is empty where it names no type."""
    return LITERALS.get(token.kind, LITERALS["FALSE_KW"])(token.text)


def plain_name(text):
    """A name without what makes it a raw one."""
    return text.removeprefix("r#")


def reference_name(text):
    """A name that is used; a number loses the zeros in front, as the place of a field."""
    if text.isascii() and text.isdigit() and int(text) < 1 << 64:
        return str(int(text))
    return plain_name(text)


def plain_lifetime(text):
    """A lifetime without what makes it a raw one."""
    return "'" + text[3:] if text.startswith("'r#") else text
