"""Well-formed bytes after a few changes, as hostile and hostile-desk throw them."""
import re

CHUNKS = [b"\r\n", b"\n", b"\r", b"\r\n\r\n", b"\0", b"\x01", b"\x7f", b"\xff", b"\xef\xbb\xbf", b"\"", b"\"\"", b",", b":", b"/", b"?", b"%2F",
          b"{", b"}", b"[" * 200 + b"]" * 200, b"{\"a\":" * 60, b"null", b"1e9", b"-0", b"1.0", b"99999999999999999999", b"\\u0000",
          b"\\ud800", b"+", b"-", b"0", b"Host: y\r\n", b"Transfer-Encoding: chunked\r\n", b"Content-Length: 0\r\n",
          b"Content-Length: 4097\r\n", b"Content-Length: 18446744073709551616\r\n", b"Exam-Code: CODE0001\r\n", b"X: y\r\n" * 33,
          b" folded\r\n", b"A" * 9000, bytes(range(256)), b"HTTP/1.0", b"HTTP/2", b"GET ", b"CONNECT "]


def changed(chance, text):
    """The bytes after a few changes, or none."""
    for _ in range(chance.choice([0, 1, 1, 1, 2, 3, 6])):
        at = chance.randrange(len(text) + 1)
        to = min(len(text), at + chance.choice([1, 1, 2, 5, 20, 100]))
        kind = chance.randrange(9)
        if kind == 0 and at < len(text):
            text = text[:at] + bytes([text[at] ^ 1 << chance.randrange(8)]) + text[at + 1:]
        elif kind == 1:
            text = text[:to] + text[at:]
        elif kind == 2:
            text = text[:at] + text[to:]
        elif kind == 3:
            text = text[:at]
        elif kind == 4:
            text = text[:at] + chance.choice(CHUNKS) + text[at:]
        elif kind == 5:
            lines = text.splitlines(keepends=True)
            if lines:
                line = chance.choice(lines)
                lines.insert(chance.randrange(len(lines) + 1), line)
                text = b"".join(lines)
        elif kind == 6:
            text = re.sub(rb"\d+", lambda found: chance.choice([found[0], found[0], b"0", b"007", b"4096", b"2" * 30]), text)
        elif kind == 7:
            text = text[:at] + bytes([chance.randrange(32)]) + text[at:]
        else:
            text = text[:at] + chance.randbytes(chance.choice([1, 3, 40])) + text[to:]
    return text
