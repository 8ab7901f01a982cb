"""Lowers the body on standard input, and prints the listing: lower.py LIBLAXIRBON.SO < DOCUMENT"""
import ctypes
import sys

library = ctypes.CDLL(sys.argv[1])
library.laxirbon_lower.argtypes = [ctypes.c_uint32] + [ctypes.c_char_p, ctypes.c_size_t] * 2 + [ctypes.POINTER(ctypes.c_size_t)]
document, needed, status = sys.stdin.buffer.read(), ctypes.c_size_t(1 << 16), 4
while status == 4:
    out = ctypes.create_string_buffer(needed.value)
    status = library.laxirbon_lower(0, document, len(document), out, len(out), needed)
(sys.stderr if status else sys.stdout).buffer.write(out[:needed.value])
sys.exit(status)
