"""Ways to spoil texts and words."""
import re

# What a word is replaced by: words of every kind that are just right, or just wrong.
NASTY_WORDS = (
    "0 1 2 00 01 001 4 64 65 4096 4097 9999 10000 -1 +1 1.0 0x1 - - -- tgrwe tgrwead tgrweada "
    "daewrgt tt q a d r rw ad T A 9a a-b a.b abcdefghijklmnop abcdefghijklmnopq vertex edge take "
    "grant create remove holds share begin commit abort seats cells rules rule version # #a _ __ "
    "_0 zz a b c group never may only @ @a @b @_0 @9 @@a"
).split()
# Lines that name a version, or seem to.
VERSION_LINES = (
    b"version 1|version 2|version 2|version 2\r| version\t2|version 3|version 0|version 02|version"
    b"|version 1 2|version 2 #|version two|version -|Version 2|versions 2|vertex version|version_2"
).split(b"|")
NUMBERS = b"0 1 2 3 00 01 001 63 64 65 99 4095 4096 4097 9999 10000 65536 -1 +1 1x".split()
NASTY_BYTES = [b"\0", b"\xff", b"\n", b"\r", b"\t", b" ", b"#", b"-", b"\x0b", b"\x0c", b"\x1a"]
NASTY_BYTES += [b"\xc3\xa9", b"\xef\xbb\xbf", b"A", b"_", b"0", b"~", b"\x7f", b"\x80"]


class Spoiler:
    """Spoils texts and words by chance."""

    def __init__(self, chance):
        self.chance = chance

    def word(self, word, chance=0.1):
        """A word, seldom another one in its place."""
        if self.chance.random() >= chance:
            return word
        return self.chance.choice([self.nasty_word(), "é".encode()])

    def text(self, text, chance=0.5):
        """A text, often spoiled in one to three places."""
        if self.chance.random() >= chance:
            return text
        ways = [self.spoil_bytes, self.spoil_lines, self.spoil_words, self.spoil_words]
        ways += [self.spoil_length, self.spoil_number, self.spoil_version]
        for _ in range(self.chance.choice([1, 1, 1, 2, 3])):
            text = self.chance.choice(ways)(text)
        return text

    def one_of(self, texts, chance=0.4):
        """Texts, often one of them spoiled."""
        chosen = self.chance.randrange(len(texts))
        texts[chosen] = self.text(texts[chosen], chance)
        return texts

    def spoil_bytes(self, text):
        """A bit is flipped, bytes are put in, or some are cut out."""
        at = self.chance.randrange(len(text) + 1)
        way = self.chance.randrange(3)
        if way == 0 and at < len(text):
            return text[:at] + bytes([text[at] ^ 1 << self.chance.randrange(8)]) + text[at + 1 :]
        if way == 1:
            return text[:at] + self.chance.choice(NASTY_BYTES) + text[at:]
        return text[:at] + text[at + self.chance.choice([1, 1, 3, 1000]) :]

    def spoil_lines(self, text):
        """A line is dropped, doubled, swapped with another, or moved."""
        lines = text.splitlines(keepends=True) or [b"\n"]
        at, other = (self.chance.randrange(len(lines)) for _ in range(2))
        way = self.chance.randrange(4)
        if way == 0:
            lines.pop(at)
        elif way == 1:
            lines.insert(other, lines[at])
        elif way == 2:
            lines[at], lines[other] = lines[other], lines[at]
        else:
            lines.insert(other, lines.pop(at))
        return b"".join(lines)

    def spoil_words(self, text):
        """Words of a line are replaced, or one is put in or dropped."""
        lines = text.split(b"\n")
        at = self.chance.randrange(len(lines))
        words = lines[at].split(b" ")
        place = self.chance.randrange(len(words))
        way = self.chance.randrange(8)
        if way == 0:
            words.insert(place, self.nasty_word())
        elif way == 1:
            words.pop(place)
        elif way < 4:
            words[-1] = self.chance.choice([b"-", b"tt", b"rr", b"tgrwe", b"ad", b"d", b"q", b"T"])
        else:
            words[place] = self.nasty_word()
            words[self.chance.randrange(len(words))] = self.nasty_word()
        lines[at] = b" ".join(words)
        return b"\n".join(lines)

    def spoil_number(self, text):
        """A number is replaced by one at its limits."""
        places = list(re.finditer(rb"\b[0-9]+\b", text))
        if not places:
            return self.spoil_words(text)
        # (the first two of a script are those of the header lines)
        place = self.chance.choice(self.chance.choice([places[:2], places]))
        return text[: place.start()] + self.chance.choice(NUMBERS) + text[place.end() :]

    def spoil_version(self, text):
        """A line that names a version, or seems to, is put in or takes a line's place."""
        lines = text.split(b"\n")
        at = self.chance.choice([0, 0, 0, 1, 2, self.chance.randrange(len(lines))])
        lines[at : at + self.chance.randrange(2)] = [self.chance.choice(VERSION_LINES)]
        return b"\n".join(lines)

    def nasty_word(self):
        """A word that seldom fits."""
        return self.chance.choice(NASTY_WORDS + [""]).encode()

    def spoil_length(self, text):
        """A line is as long as it may be, or one byte longer; or the last line feed is gone."""
        if self.chance.random() < 0.3:
            return text[:-1]
        lines = text.split(b"\n")
        at = self.chance.randrange(len(lines))
        lines[at] = lines[at].ljust(self.chance.choice([255, 256, 257]), b" ")
        return b"\n".join(lines)
