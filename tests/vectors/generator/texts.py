"""texts.json: the forms of a hash, texts that are read and refused, and the order of hashes."""

from __future__ import annotations

from . import lists
from .files import File, Group, Test, invalid, valid
from .model import m

MARKER = (m.MAX_U64,) * 4
EXAMPLE = lists.hash_of(bytes([22, 175, 58, 132, 4, 75, 131, 214, 190, 153, 138, 66, 226, 3, 153, 242, 204, 86, 80, 234, 249,
                               153, 80, 99, 159, 80, 65, 138, 236, 231, 149, 78]))
COUNTING = lists.hash_of(bytes(range(32)))
HASHES = [m.DEFAULT_HASH, MARKER, EXAMPLE, COUNTING, (1, 0, 0, 0), (0, 1, 0, 0), (0, 0, 1, 0), (0, 0, 0, 1),
          (2**63, 0, 0, 0), (0, 0, 0, 2**63), (0, 0, 0, 4), (0xFEDCBA0987654321, 0x1111111111111111, 0, 0),
          *map(m.random_from_seed, range(1, 8))]
DIVISORS = (1, 2, 3, 4, 1000, 2**63, m.MAX_U64)

MEANS = [
    "A hash has four words. Its 32 bytes are the words in order, each little-endian. Its hex text is the words in order, "
    "each as 16 lower-case digits with the high digit first. Its base64 text is that of the 32 bytes in the URL-safe "
    "alphabet of RFC 4648, section 5, without padding.",
    "A text is any Unicode text. A reader gets its UTF-8 bytes.",
]
HEADER = [
    *MEANS,
    "If the result is valid, `hash` is the hex text of what was read.",
    "Words, divisors and remainders are decimal strings.",
]
NOTES = {
    "UpperCase": "Hex digits of either case are read.",
    "WrongLength": "A hex text has exactly 64 digits, and a base64 text exactly 43 characters.",
    "BadCharacter": "A character of the text isn't in the alphabet.",
    "Whitespace": "White space isn't skipped.",
    "NonAscii": "The text has a character outside ASCII. Its length in bytes, or in characters, may be right.",
    "Prefix": "A prefix isn't skipped.",
    "Padding": "There is no padding.",
    "StandardAlphabet": "Plus and slash belong to the other alphabet.",
    "TrailingBits": "The last character has bits that the 32 bytes don't fill, and they aren't 0. No such text is written.",
    "NulCharacter": "The text has a zero byte. A reader that stops there reads another text.",
}


def forms() -> Group:
    """Each hash in all its forms."""
    def test(value: m.Hash) -> Test:
        remainders = [{"divisor": str(by), "remainder": str(m.remainder(value, by))} for by in DIVISORS]
        return valid("", words=[str(word) for word in value], hashBytes=m.to_bytes(value).hex(), hex=m.to_hex(value),
                     base64=m.to_base64(value), naturalCut=m.is_cut((value, 0)), remainders=remainders)

    return Group("HashForms", "hashes by their words, in all forms, with word 3 modulo some divisors", list(map(test, HASHES)))


def hex_texts() -> Group:
    """Hex texts."""
    text = m.to_hex(EXAMPLE)
    good = [("", text), ("all digits upper-case", text.upper()), ("mixed case", text[:32].upper() + text[32:]),
            ("zeros", "0" * 64), ("all bits one", "f" * 64), ("all bits one, upper-case", "F" * 64)]
    bad = [("no digit", "", "WrongLength"), ("one digit", "0", "WrongLength"), ("62 digits", text[:62], "WrongLength"),
           ("63 digits", text[:63], "WrongLength"), ("65 digits", text + "0", "WrongLength"),
           ("66 digits", text + "00", "WrongLength"), ("128 digits", text * 2, "WrongLength"),
           ("g at the end", text[:63] + "g", "BadCharacter"), ("G at the start", "G" + text[1:], "BadCharacter"),
           ("a slash, which stands before 0", "/" + text[1:], "BadCharacter"),
           ("a colon, which stands after 9", ":" + text[1:], "BadCharacter"),
           ("@, which stands before A", "@" + text[1:], "BadCharacter"),
           ("a grave accent, which stands before a", "`" + text[1:], "BadCharacter"),
           ("a sign in the place of a digit", "+" + text[1:], "BadCharacter"),
           ("a sign at a word", text[:16] + "-" + text[17:], "BadCharacter"),
           ("an underscore", text[:20] + "_" + text[21:], "BadCharacter"),
           ("a space in front", " " + text, "Whitespace"), ("a space for the first digit", " " + text[1:], "Whitespace"),
           ("a newline after it", text + "\n", "Whitespace"), ("a newline for the last digit", text[:63] + "\n", "Whitespace"),
           ("0x in front", "0x" + text, "Prefix"), ("0x for the first digits", "0x" + text[2:], "Prefix"),
           ("64 bytes with one letter past ASCII", text[:62] + "\u00e9", "NonAscii"),
           ("64 characters with one letter past ASCII", text[:63] + "\u00e9", "NonAscii"),
           ("an Arabic-Indic digit", text[:63] + "\u0660", "NonAscii"),
           ("a fullwidth digit", "\uff10" + text[1:], "NonAscii"),
           ("a zero byte for the last digit", text[:63] + "\0", "NulCharacter"),
           ("a zero byte after it", text + "\0", "NulCharacter"), ("the base64 text", m.to_base64(EXAMPLE), "WrongLength")]
    tests = [valid(comment, *["UpperCase"] * (it != it.lower()), text=it, hash=_read(m.from_hex(it)))
             for comment, it in good]
    tests += [_refused(m.from_hex(it), comment, flag, it) for comment, it, flag in bad]
    return Group("HexText", "hex texts, and others", tests)


def base64_texts() -> Group:
    """Base64 texts."""
    text = m.to_base64(EXAMPLE)
    tests = [valid(comment, text=m.to_base64(value), hash=m.to_hex(value))
             for comment, value in (("", EXAMPLE), ("zeros", m.DEFAULT_HASH), ("all bits one", MARKER), ("", COUNTING))]
    bad = [("nothing", "", "WrongLength"), ("42 characters", text[:42], "WrongLength"),
           ("44 characters", text + "A", "WrongLength"), ("two texts", text * 2, "WrongLength"),
           ("one padding character", text + "=", "Padding"), ("padding in the place of the last", text[:42] + "=", "Padding"),
           ("plus for minus", text.replace("-", "+"), "StandardAlphabet"),
           ("slash for underscore", m.to_base64(MARKER).replace("_", "/"), "StandardAlphabet"),
           ("the least trailing bit", "A" * 42 + "B", "TrailingBits"), ("both trailing bits", "A" * 42 + "D", "TrailingBits"),
           ("a trailing bit beside others", text[:42] + "5", "TrailingBits"),
           ("all bits one, and one more", "_" * 43, "TrailingBits"),
           ("a space in front", " " + text, "Whitespace"), ("a newline after it", text + "\n", "Whitespace"),
           ("a space inside", text[:20] + " " + text[21:], "Whitespace"),
           ("a percent sign", text[:20] + "%" + text[21:], "BadCharacter"),
           ("a full stop", text[:20] + "." + text[21:], "BadCharacter"),
           ("43 bytes with one letter past ASCII", text[:41] + "\u00e9", "NonAscii"),
           ("43 characters with one letter past ASCII", text[:42] + "\u00e9", "NonAscii"),
           ("a zero byte for the last character", text[:42] + "\0", "NulCharacter"),
           ("a zero byte after it", text + "\0", "NulCharacter"), ("the hex text", m.to_hex(EXAMPLE), "WrongLength")]
    tests += [_refused(m.from_base64(it), comment, flag, it) for comment, it, flag in bad]
    return Group("Base64Text", "base64 texts, and others", tests)


def _read(value: m.Hash | None) -> str:
    if value is None:
        raise ValueError("a good text isn't read")
    return m.to_hex(value)


def _refused(value: m.Hash | None, comment: str, flag: str, text: str) -> Test:
    if value is not None:
        raise ValueError(f"a bad text is read: {text!r}")
    return invalid(comment, flag, text=text)


def order() -> Group:
    """Pairs of hashes and their order."""
    values = [m.DEFAULT_HASH, (0, 0, 0, 1), (0, 0, 1, 0), (1, 0, 0, 0), (256, 0, 0, 0), (1, m.MAX_U64, 0, 0), EXAMPLE, MARKER]
    tests = [valid("", first=m.to_hex(a), second=m.to_hex(b), order=m.compare(a, b)) for a in values for b in values]
    return Group("HashOrder", "the order of the lists of words, which is that of the hex texts: -1, 0 or 1", tests)


def file() -> File:
    """texts.json."""
    return File("texts", "forms of a hash", HEADER, NOTES, [forms(), hex_texts(), base64_texts(), order()])
