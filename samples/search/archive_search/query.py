"""What a reader asks for, as an expression of SQLite's FTS5.

Each word becomes a quoted string of FTS5, so that no character of a question is a column, an operator or a bracket there.
"""
import re, unicodedata

from .message import UNSPACED_RUN, as_indexed

LONGEST, MOST_WORDS = 400, 16
WITHOUT_QUOTED, ALL = "subject author text", "subject author text quoted"
COLUMNS = {"s": "subject", "f": "author", "b": "text", "q": "quoted"}
TERM = re.compile(r'(-?)(?:([sfbq]):)?(?:"([^"]*)"?|(\S+))')
DAY = r"\d{4}(?:-\d\d(?:-\d\d)?)?"
DATES = re.compile(rf"d:({DAY})?\.\.({DAY})?|d:({DAY})")


class Unclear(Exception):
    """What cannot be asked, in words for the reader; without words if nothing was asked."""


class Query:
    """
    A question. `match` is for FTS5, and None if dates alone are asked for; `since` and `until` are beginnings of `yyyy-mm-dd`;
    `words` are what a reader would look for in a text that was found.
    """

    def __init__(self, asked, quoted=False):
        if len(asked) > LONGEST:
            raise Unclear(f"A question has at most {LONGEST} characters.")
        self.since, self.until, self.words = "", "", []
        self.wanted, self.unwanted = [], []
        self.read(unicodedata.normalize("NFKC", asked.replace("\0", " ")), ALL if quoted else WITHOUT_QUOTED)
        if sum(map(len, self.wanted)) + len(self.unwanted) > MOST_WORDS:
            raise Unclear(f"A question has at most {MOST_WORDS} words.")
        if self.unwanted and not self.wanted:
            raise Unclear("Add a word that the messages have: words with a minus only leave messages out.")
        self.match = self.expression()
        if self.match is None and not self.since and not self.until:
            raise Unclear("")

    def read(self, asked, columns):
        """Reads the terms one after the other; OR joins two of them."""
        joins = False
        for found in TERM.finditer(asked):
            minus, field, phrase, word = found.groups()
            if dates := DATES.fullmatch(found[0]):
                self.since, self.until = (dates[3], dates[3]) if dates[3] else (dates[1] or "", dates[2] or "")
            elif word in ("OR", "AND") and not minus and not field:
                joins = word == "OR"
            elif term := self.term(COLUMNS.get(field, columns), phrase, word, bool(minus)):
                if minus:
                    self.unwanted.append(term)
                elif joins and self.wanted:
                    self.wanted[-1].append(term)
                else:
                    self.wanted.append([term])
                joins = False

    def term(self, columns, phrase, word, is_unwanted):
        """Returns a term as FTS5 takes it, and None if it has no letter and no digit."""
        text = (word if phrase is None else phrase).rstrip("*")
        if not any(map(str.isalnum, text)):
            return None
        if not is_unwanted:
            self.words.append(text.casefold())
        said = as_indexed(text, ends=False).strip().replace('"', " ")
        return f'{{{columns}}} : "{said}"' + (" *" if is_prefix(phrase, word, text) else "")

    def expression(self):
        match = " AND ".join(f"({' OR '.join(terms)})" for terms in self.wanted)
        return f"({match}) NOT ({' OR '.join(self.unwanted)})" if self.unwanted else match or None


def is_prefix(phrase, word, text):
    """Whether a term finds what begins with it: where `*` says so, and where it ends with one letter of a script without spaces."""
    if phrase is None and word.endswith("*") and len(text) > 1:
        return True
    *_, last = [None, *UNSPACED_RUN.finditer(text)]
    return last is not None and last.end() == len(text) and len(last[0]) == 1
