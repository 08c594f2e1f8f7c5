"""The parts of a text: "Blanks" and "Words". Each function reads at an offset p of a text t, in bytes."""
import re

from .faults import at

# ---------------------------------------------------------------- "Blanks"

CR, LF = 0x0D, 0x0A


def line_comment(t, p):
    """The offset after the line comment at p, which ends with the next CR or LF, or at the end of the text."""
    p += 2
    while p < len(t):
        p += 1
        if t[p - 1] in (CR, LF):
            break
    return p


def comment_end(t, p):
    """The offset after the block comment at p, or None if it never closes."""
    close = t.find(b'*/', p + 2)
    return None if close < 0 else close + 2


def blank(t, p):
    while True:
        if p < len(t) and t[p] in b' \t\r\n':
            p += 1
        elif t.startswith(b'//', p):
            p = line_comment(t, p)
        elif t.startswith(b'/*', p):
            end = comment_end(t, p)
            if end is None:
                raise at('IncompleteComment', p)
            p = end
        else:
            return p


def same_line_blank(t, p):
    while True:
        if p < len(t) and t[p] in b' \t':
            p += 1
        elif p < len(t) and t[p] in (CR, LF):
            raise at('ReachedEOL', p)
        elif t.startswith(b'//', p):
            p = line_comment(t, p)
        elif t.startswith(b'/*', p):
            end = comment_end(t, p)
            held = t[p:end]
            if b'\r' in held or b'\n' in held:
                raise at('ReachedEOL', p)
            if end is None:
                raise at('IncompleteComment', p)
            p = end
        else:
            return p


# ---------------------------------------------------------------- "Words"

NAME = re.compile(rb'[a-zA-Z_.][a-zA-Z0-9_.]*')
IDENTIFIER = re.compile(rb'[a-zA-Z_][a-zA-Z_0-9]*')
INTEGER = re.compile(rb'[0-9]+')
GREATEST = 18446744073709551615
QUOTES = (b'"', b"'")

# Unicode's White_Space
WHITE_SPACE = ''.join(map(chr, [
    *range(0x09, 0x0E), 0x20, 0x85, 0xA0, 0x1680, *range(0x2000, 0x200B), 0x2028, 0x2029, 0x202F, 0x205F, 0x3000]))


def trimmed(piece):
    return piece.decode('utf-8').strip(WHITE_SPACE)


def name(t, p):
    """The name at p, and the offset after it."""
    m = NAME.match(t, p)
    if not m:
        raise at('IllegalName', p)
    return m.group().decode('ascii'), m.end()


def integer(t, p):
    """The number at p, and the offset after it."""
    m = INTEGER.match(t, p)
    if not m or int(m.group()) > GREATEST:
        raise at('IllegalInteger', p)
    return int(m.group()), m.end()


def line_rest(t, p):
    """The text at p up to the next CR or LF, or to the end, and the offset after it."""
    end = p
    while end < len(t) and t[end] not in (CR, LF):
        end += 1
    return t[p:end].decode('utf-8'), end


def token(t, p):
    """The token at p: its name, its span, and the offset after it (and after its quote)."""
    if t[p:p + 1] in QUOTES:
        # At least one character (which may be the quote), and all up to the next quote of that kind, without an LF.
        # (A multibyte character has no byte of a quote, so the search may begin inside of it.)
        close = t.find(t[p:p + 1], p + 2)
        if close < 0 or b'\n' in t[p + 1:close]:
            raise at('IllegalString', p)
        return t[p + 1:close].decode('utf-8'), (p + 1, close), close + 1
    m = IDENTIFIER.match(t, p)
    if not m:
        raise at('IllegalString', p)
    return m.group().decode('ascii'), m.span(), m.end()


def string(t, p):
    """The value of the string at p, and the offset after it."""
    quote, value, end = t[p:p + 1], bytearray(), p + 1
    if quote not in QUOTES:
        raise at('InvalidString', p)
    while t[end:end + 1] != quote:
        character, next_one = t[end:end + 1], t[end + 1:end + 2]
        if character in (b'', b'\r', b'\n') or character == b'\\' and next_one not in QUOTES:
            raise at('InvalidString', end)
        if character == b'\\':
            end += 1
        value += t[end:end + 1]
        end += 1
    return value.decode('utf-8'), end + 1


def colon_text(t, p):
    """The text at p up to a single colon, trimmed, and the offset of that colon."""
    end = p
    while end < len(t):
        if t.startswith(b'::', end):
            end += 2
        elif t.startswith(b':', end):
            return trimmed(t[p:end]), end
        else:
            end += 1
    raise at('ReachedEOL', end)


def action_text(t, p):
    """The action whose brace is at p, trimmed, its span, and the offset after the matching brace."""
    depth, end = 0, p
    while end < len(t):
        depth += {b'{': 1, b'}': -1}.get(t[end:end + 1], 0)
        end += 1
        if depth == 0:
            text = trimmed(t[p + 1:end - 1])
            return text, (p + 1, p + 1 + len(text.encode('utf-8'))), end
    raise at('IncompleteAction', p)
