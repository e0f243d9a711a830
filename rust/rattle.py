"""Rattle's and Rust's text as tokens, and text whose comments and literals are hidden behind marks."""
import re

TOKEN = re.compile(r'''
  (?P<inner>//![^\n]*) | (?P<doc>///[^\n]*) | (?P<comment>//[^\n]*|/\*.*?\*/) |
  (?P<string>b?r(?P<hashes>\#*)".*?"(?P=hashes) | b?"(?:\\.|[^"\\])*") |
  (?P<char>b?'(?:\\(?:x[0-9a-fA-F]{2}|u\{[^}]*\}|.)|[^'\\\n])') |
  (?P<lifetime>'[A-Za-z_]\w*) |
  (?P<word>[A-Za-z_]\w*) | (?P<number>\d[\w.]*?(?=\.\.|[^\w.]|$)) | (?P<space>\s+) | (?P<sign>.)
''', re.X | re.S)

CLOSING = {'(': ')', '[': ']', '{': '}'}


def tokens(text):
    """The tokens as pairs of kind and text; joined they are the text."""
    found = []
    for match in TOKEN.finditer(text):
        kind = match.lastgroup if match.lastgroup != 'hashes' else 'string'
        found.append((kind, match.group(0)))
    return found


def code(text):
    """The texts of the tokens that a compiler sees."""
    return [t for kind, t in tokens(text) if kind not in ('inner', 'doc', 'comment', 'space')]


MARK = re.compile('\x01([idcs])(\\d+)\x02')


def hide(text):
    """The text with a mark in place of each comment and literal (i: inner doc comment, d: doc comment, c: comment, s: literal), and what the marks
    stand for."""
    kinds = {'inner': 'i', 'doc': 'd', 'comment': 'c', 'string': 's', 'char': 's'}
    kept, out = [], []
    for kind, t in tokens(text):
        if kind in kinds:
            out.append('\x01%s%d\x02' % (kinds[kind], len(kept)))
            kept.append(t)
        else:
            out.append(t)
    return ''.join(out), kept


def show(text, kept):
    """The text whose marks stand for these."""
    return MARK.sub(lambda m: kept[int(m.group(2))], text)


def group_end(text, at):
    """The place behind the bracket that closes the one at this place; the text has no comments and no literals."""
    open_ = []
    for i in range(at, len(text)):
        c = text[i]
        if c in CLOSING:
            open_.append(CLOSING[c])
        elif open_ and c in ')]}':
            if c != open_.pop():
                raise ValueError('brackets that do not fit: ' + text[at:i + 1][:200])
            if not open_:
                return i + 1
    raise ValueError('a bracket is not closed: ' + text[at:at + 80])
