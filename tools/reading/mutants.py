"""Texts of the rows, and texts that are changed a little, so that most of what comes is nearly right."""
import glob
import json
import os
import re

PIECE = re.compile(rb'[A-Za-z0-9_.$-]+:?|[%@#!]?"[^"]*"|[%@#!][A-Za-z0-9_.$-]*|\s+|.', re.S)
LONGEST = 3000


def bytes_of(value):
    """A file of a row: a text, or a list of lines, of bytes by their numbers and of texts so many times."""
    if isinstance(value, str):
        return value.encode()
    found = b""
    for part in value:
        if isinstance(part, str):
            found += part.encode() + b"\n"
        else:
            found += bytes([part]) if isinstance(part, int) else part["text"].encode() * part["times"]
    return found


def rows_in(folder, names="whole_*.json"):
    """The rows of the files of these names, each with its file's name; if no names are given, those of the tables `whole_*.json`."""
    for path in sorted(glob.glob(os.path.join(folder, names))):
        with open(path) as file:
            rows = json.load(file)
        for row in rows if isinstance(rows, list) else []:
            yield os.path.basename(path), row


def pieces_of(texts):
    """The pieces of those of the texts that are neither empty nor long, each text once."""
    return [PIECE.findall(text) for text in sorted(set(texts)) if 0 < len(text) < LONGEST]


def plain_texts(folder):
    """First texts of other rows, of functions over integers, whose answers tell no fault of a text."""
    for _, row in rows_in(folder, "[!w]*.json"):
        if row.get("status") in (0, 1, 4, 5) and "a.ll" in row.get("files", {}):
            yield bytes_of(row["files"]["a.ll"])


def sort_of(piece):
    """Pieces of one sort may stand in each other's places: names, types, numbers, and words by themselves."""
    if re.fullmatch(rb"i[0-9]+", piece):
        return "type"
    if re.fullmatch(rb"-?[0-9]+", piece):
        return "number"
    return piece[:1].decode("latin1") if piece[:1] in b"%@!#\"" else "label" if piece.endswith(b":") else "word" if piece[:1].isalpha() else "other"


class Mutants:
    """The texts of the rows in pieces, those without a fault apart, and all pieces that they have by their sorts."""

    def __init__(self, folder):
        texts = [(row["status"], bytes_of(row["files"]["a.ll"])) for _, row in rows_in(folder)]
        self.texts = pieces_of(text for _, text in texts)
        self.faultless = pieces_of(text for status, text in texts if status == 0)
        self.plain = pieces_of(plain_texts(folder))
        self.pieces = sorted({piece for text in self.texts for piece in text if not piece.isspace()})
        self.sorts = {}
        for piece in self.pieces:
            self.sorts.setdefault(sort_of(piece), []).append(piece)

    def some(self, rng):
        """A text with one to three changes. Two of three are made of a text without a fault of its own, by changes that are likely to keep its grammar."""
        texts = rng.choice((self.texts, self.faultless, self.plain))
        pieces, change = list(rng.choice(texts)), self.change if texts is self.texts else self.near_change
        for _ in range(rng.choice((1, 1, 1, 2, 3))):
            if pieces:
                change(rng, pieces)
        return b"".join(pieces)

    def near_change(self, rng, pieces):
        """A piece is another of its sort, mostly one of the same text, there or wherever it stands; or a line goes, moves, or comes twice."""
        at, kind = rng.randrange(len(pieces)), rng.random()
        if kind < 0.7:
            old, sort = pieces[at], sort_of(pieces[at])
            own = [piece for piece in pieces if sort_of(piece) == sort]
            new = rng.choice(own if rng.random() < 0.7 or old.isspace() else self.sorts[sort])
            if kind < 0.5:
                pieces[at] = new
            else:
                pieces[:] = [new if piece == old else piece for piece in pieces]
            return
        ends = [number for number, piece in enumerate(pieces) if b"\n" in piece]
        if len(ends) > 1:
            line, to = rng.randrange(len(ends) - 1), rng.choice(ends)
            moved = pieces[ends[line]:ends[line + 1]]
            if kind < 0.9:
                pieces[to:to] = moved
            if kind > 0.8:
                start = ends[line] + (len(moved) if to <= ends[line] and kind < 0.9 else 0)
                del pieces[start:start + len(moved)]

    def change(self, rng, pieces):
        """A piece goes, comes, is another, changes places with one; some of another text come; the last ones come twice."""
        at, kind = rng.randrange(len(pieces)), rng.random()
        if kind < 0.25:
            del pieces[at]
        elif kind < 0.5:
            pieces[at:at] = [b" ", rng.choice(self.pieces)]
        elif kind < 0.75:
            pieces[at] = rng.choice(self.pieces)
        elif kind < 0.85:
            other = rng.randrange(len(pieces))
            pieces[at], pieces[other] = pieces[other], pieces[at]
        elif kind < 0.95:
            text = rng.choice(self.texts)
            start = rng.randrange(len(text))
            pieces[at:at] = text[start:start + rng.randrange(1, 12)]
        else:
            pieces[at:at] = pieces[max(0, at - 6):at]
