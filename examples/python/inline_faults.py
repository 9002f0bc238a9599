"""Wrong forms of slh_dsa_inline.h, one fault each.

    inline_faults.py HEADER FOLDER    writes each as FOLDER/NUMBER/slh_dsa_inline.h, and beside it
                                      `fault`, which tells the lines and what became of them
"""

import re
import sys
from itertools import combinations
from pathlib import Path

# Two arguments of a call: an address and its length.
PAIR = re.compile(
    r"slh_dsa_(?:read|write)_at\((\w+), &nothing\), (?:is_missing \? 0 : )?\1_bytes\b"
    r"|\b(\w+), \2_bytes\b"
)
MISSING = re.compile(r"slh_dsa_is_missing\((\w+), \1_bytes\)")
NOTHING = '(const uint8_t *)"", 0'

# Other values of what has no length.
VALUES = {
    "set": ["SLH_DSA_SHA2_128F", "0"],
    "mode": ["SLH_DSA_PURE", "SLH_DSA_PREHASH_SHA256"],
    "number": ["0", "number + 1"],
    "index": ["0", "index + 1"],
}
RECORDS = "evidence end entries file head old_head new_head verifier signer".split()
VALUES.update({name: ["NULL"] for name in RECORDS})

# Texts, and what is put there.
OTHERS = [
    ("==", "!="),
    ("!=", "=="),
    ("<=", "<"),
    ("&&", "||"),
    ("||", "&&"),
    ("++", "+= 2"),
    ("set, mode,", "mode, set,"),
    ("old_head, new_head,", "new_head, old_head,"),
    ("is_missing ? 0 : ", ""),
    ("at : nothing", "nothing : at"),
    ("at : nothing", "at : at"),
    ("at : nothing", "nothing : nothing"),
    ("at = 0", "at = 1"),
    ("i = 0", "i = 1"),
    (" < ", " <= "),
    (" < 64", " < 63"),
    (" < 3 ", " < 4 "),
    ("> 127", "> 128"),
    ("> 127", "> 95"),
    ("<< 6", "<< 5"),
    ("3 - ", "2 - "),
    ("% 4", "% 3"),
    (">> 2 *", ">> 3 *"),
    ("<< 2 *", "<< 3 *"),
    ("behind = 0;", "behind = 1;"),
    ("bits = 0", "bits = 1"),
    ("digits = 0,", "digits = 1,"),
    ("padding = 0", "padding = 1"),
    ("read = 0", "read = 1"),
    ("secret[at] = 0", "secret[at] = 1"),
    ("value = 0;", "value = 1;"),
    ("19 + set", "20 + set"),
    ("18U", "17U"),
    ("16U", "15U"),
    ("0x04 : 0x03", "0x03 : 0x04"),
    ("+ 1)", ")"),
    ("0x00", "0x01"),
    ("0x81", "0x82"),
    ("0x30", "0x31"),
    ("0x06", "0x07"),
    ("is_signing ?", "!is_signing ?"),
    ("is_signing &&", "!is_signing &&"),
    ("(!is_signing", "(is_signing"),
    ("(is_long)", "(!is_long)"),
    ("continue;", "break;"),
    ("continue;", "return 0;"),
    ("end -= ", "end -= 1 + "),
    ("body, label", "0, label"),
    ("end, label", "body, label"),
    ("pem + body, end - body", "pem + body + 1, end - body - 1"),
    ("pem + body, end - body", "pem, end"),
    ("PRIVATE", "PUBLIC"),
    ("PUBLIC", "PRIVATE"),
    ("BEGIN", "BEGIM"),
    ("END", "EN"),
    ("pem_bytes, 1, set", "pem_bytes, 0, set"),
    ("pem_bytes, 0, set", "pem_bytes, 1, set"),
    ("? at", "? bytes"),
    ('"ABC', '"aBC'),
    ("9+/", "9-_"),
    ("== 0 ? 0 :", "== 0 ? 1 :"),
    ("n == 0 ? 0 : ", ""),
    ("signature_bytes == 0 ? 0 : ", ""),
    ("_SEEDS_BYTES", "_SIGNING_KEY_BYTES"),
    ("_SIGNING_KEY_BYTES", "_VERIFYING_KEY_BYTES"),
    ("_VERIFYING_KEY_BYTES", "_SIGNING_KEY_BYTES"),
    ("_RANDOMIZER_BYTES", "_VERIFYING_KEY_BYTES"),
    ("_HEAD_BYTES", "_MAX_RECEIPT_BYTES"),
    ("_MAX_RECEIPT_BYTES", "_HEAD_BYTES"),
    ("_SCRATCH_BYTES", "_HEAD_BYTES"),
    ("(set)", "(0)"),
    ("(set)", "(SLH_DSA_SHA2_128F)"),
    ("= SLH_DSA_SHA2_128S", "= SLH_DSA_SHA2_128F"),
    ("0x3ca5965a", "0x3ca5965b"),
    ("0xc35a69a5", "0xc35a69a4"),
    ("0xffffffff", "0"),
    ("verify(", "verify_digest("),
    ("verify_digest(", "verify("),
    ("sign(", "sign_digest("),
    ("sign_digest(", "sign("),
    ("if (is_missing)", "if (0)"),
    ("if (is_missing)", "if (!is_missing)"),
    ("first != SLH_DSA_OK", "0"),
    ("second == SLH_DSA_OK", "1"),
    ("return status", "return SLH_DSA_OK"),
    ("return status", "return SLH_DSA_INVALID"),
    ("return SLH_DSA_LENGTH", "return SLH_DSA_OK"),
    ("return SLH_DSA_LENGTH", "return SLH_DSA_INVALID"),
    ("return SLH_DSA_LENGTH", "return SLH_DSA_FORM"),
    ("return slh_", "return SLH_DSA_OK; return slh_"),
    ("return slh_", "return SLH_DSA_INVALID; return slh_"),
    ("return slh_", "return SLH_DSA_OK & slh_"),
    ("return slh_", "return SLH_DSA_FORM ^ slh_"),
    ("VERDICT_REFUSED", "VERDICT_ACCEPTED"),
    ("VERDICT_ACCEPTED", "VERDICT_REFUSED"),
    ("return verdict", "return SLH_DSA_VERDICT_ACCEPTED"),
    ("return verdict", "return SLH_DSA_VERDICT_REFUSED"),
    ("return 0", "return 1"),
    ("return set", "return 0"),
]


def bodies(text):
    """Where the bodies of functions begin and end."""
    return [match.span() for match in re.finditer(r"^\{\n.*?^\}$", text, re.M | re.S)]


def calls(text, begin, end):
    """Where the calls of the library in a body begin and end."""
    names = r"\bslh_(?:dsa_sha2|batch|chain|log|manifest)_\w+\("
    for match in re.finditer(names, text[begin:end]):
        yield begin + match.end(), text.index(";", begin + match.end())


def of_pair(name, pair):
    """A pair left out, without its bytes, without its NULL, too short; its length of nothing."""
    yield from (NOTHING, "NULL, 0", f"{name}, 0", f"&nothing, {name}_bytes")
    yield f"{pair} - 1"
    if pair != f"{name}, {name}_bytes":
        yield f"{name}, {name}_bytes"


def exchanged(one, other):
    """Two pairs in each other's place: as a whole, their addresses alone, their lengths alone."""
    texts = [one.group(), other.group()]
    names = [one[1] or one[2], other[1] or other[2]]
    yield texts[1], texts[0]
    addresses = zip(names, names[::-1], texts)
    yield tuple(re.sub(rf"\b{a}\b", b, t) for a, b, t in addresses)
    lengths = zip(names, names[::-1], texts)
    yield tuple(re.sub(rf"\b{a}_bytes\b", f"{b}_bytes", t) for a, b, t in lengths)


def in_call(text, begin, end):
    """Faults of one call, each as a list of places with what stands there then."""
    pairs = list(PAIR.finditer(text, begin, end))
    for pair in pairs:
        for other in of_pair(pair[1] or pair[2], pair.group()):
            yield [(pair.span(), other)]
    for one, other in combinations(pairs, 2):
        for first, second in exchanged(one, other):
            yield [(one.span(), first), (other.span(), second)]
    for word in re.finditer(r"\b\w+\b", text[begin:end]):
        for other in VALUES.get(word.group(), []):
            yield [((begin + word.start(), begin + word.end()), other)]


def in_body(text, begin, end):
    """Faults of a body outside its calls' arguments."""
    missing = list(MISSING.finditer(text, begin, end))
    for match in missing:
        yield [(match.span(), "0")]
        yield [(match.span(), "1")]
        for other in missing:
            if other[1] != match[1]:
                yield [(match.span(), f"slh_dsa_is_missing({other[1]}, {match[1]}_bytes)")]
                yield [(match.span(), f"slh_dsa_is_missing({match[1]}, {other[1]}_bytes)")]
    texts = list(re.finditer(r'return (".*?")', text[begin:end]))
    for one, other in zip(texts, texts[1:]):
        spans = [(begin + match.start(1), begin + match.end(1)) for match in (one, other)]
        yield [(spans[0], other[1]), (spans[1], one[1])]


def with_others(text, begin, end):
    for old, new in OTHERS:
        at = text.find(old, begin, end)
        while at >= 0:
            yield [((at, at + len(old)), new)]
            at = text.find(old, at + 1, end)


def faults(text):
    for begin, end in bodies(text):
        for call in calls(text, begin, end):
            yield from in_call(text, *call)
        yield from in_body(text, begin, end)
        yield from with_others(text, begin, end)
    for match in re.finditer(r"^#define SLH_DSA_VERDICT.*$", text, re.M):
        yield from with_others(text, *match.span())


def line_at(text, begin, end):
    """The number and the text of a line."""
    line = text[text.rindex("\n", 0, begin) + 1 : text.index("\n", end)].strip()
    return f"line {text.count(chr(10), 0, begin) + 1}, {line}"


def main(header, folder):
    text = Path(header).read_text()
    seen = {text}
    for fault in faults(text):
        changed = text
        for (begin, end), new in sorted(fault, reverse=True):
            changed = changed[:begin] + new + changed[end:]
        if changed in seen:
            continue
        at = Path(folder) / f"{len(seen):04}"
        at.mkdir()
        (at / "slh_dsa_inline.h").write_text(changed)
        told = [
            f"{line_at(text, *span)} {text[slice(*span)]!r} -> {new!r}" for span, new in fault
        ]
        (at / "fault").write_text("; ".join(told) + "\n")
        seen.add(changed)


if __name__ == "__main__":
    main(*sys.argv[1:])
