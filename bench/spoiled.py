"""Random roads, and certificates of them that are spoiled, by the modules of a reference written apart: fuzz (random_road,
altered_cert) and cert (write_cert, Split), whose folder the caller has put where Python looks. One number, one sign, one word, one line
or one split is changed, the parts of a split are exchanged, lines are left out, doubled or exchanged, the text is cut, a byte is changed.
"""
import re

import cert as certs
import fuzz


def random_road(rng):
    """A random road of the format's first version, as it was made, and as it is read."""
    while True:
        made = fuzz.random_road(rng, rng.choice([1, 2, 3, 4]))
        made.root["version"] = 1
        made.root.pop("entrances", None)
        for section in made.root["section"]:
            section.pop("bulk", None)
        try:
            return made, made.road()
        except Exception:  # the reference refuses it
            continue


# ---- one thing is spoiled in a text

NUMBER = re.compile(r"-?\d+")


def one_number(rng, text, lines):
    at = rng.choice(list(NUMBER.finditer(text)))
    value = int(at.group())
    new = rng.choice([value + 1, value - 1, 0, 1, 2 * value, value + 10, 2**40, 2**40 + 1, 10**18, 10**29])
    return text[:at.start()] + str(new) + text[at.end():]


def one_sign(rng, text, lines):
    at = rng.choice(list(NUMBER.finditer(text)))
    word = at.group()
    new = word[1:] if word.startswith("-") else rng.choice(["-", "-", "-", "+", "0"]) + word
    return text[:at.start()] + new + text[at.end():]


def one_multiplier(rng, text, lines):
    places = [i for i, line in enumerate(lines) if line.startswith("m ")]
    if not places:
        return None
    i = rng.choice(places)
    _, row, value = lines[i].split(" ")
    value = rng.choice([-int(value), -int(value), int(value) + 1, int(value) - 1, 2 * int(value), 1])
    lines[i] = f"m {row} {value}"
    return "".join(lines_ended(lines))


def one_word(rng, text, lines):
    i = rng.randrange(len(lines))
    words = lines[i].split(" ")
    w = rng.randrange(len(words))
    other = rng.choice(rng.choice(lines).split(" "))
    words[w:w + 1] = rng.choice([[other], [], [words[w], other], [words[w].upper()]])
    lines[i] = " ".join(words)
    return "".join(lines_ended(lines))


def one_line(rng, text, lines):
    lines[rng.randrange(len(lines))] = rng.choice(lines)
    return "".join(lines_ended(lines))


def one_split(rng, text, lines):
    places = [i for i, line in enumerate(lines) if line.startswith("split ")]
    if not places:
        return None
    i = rng.choice(places)
    words = lines[i].split(" ")
    w = rng.choice([1, 2, 3, 3, 3])
    if w == 1:
        words[1] = "height" if words[1] == "removal" else "removal"
    else:
        words[w] = str(rng.choice([int(words[w]) + 1, int(words[w]) - 1, -int(words[w]), 0, 1, 2, 3, 10**17, -10**17]))
    lines[i] = " ".join(words)
    return "".join(lines_ended(lines))


def lines_left_out(rng, text, lines):
    i = rng.randrange(len(lines))
    del lines[i:i + rng.choice([1, 1, 1, 2, 3, 10])]
    return "".join(lines_ended(lines))


def lines_doubled(rng, text, lines):
    i = rng.randrange(len(lines))
    j = i + rng.choice([1, 1, 1, 2, 3, 10])
    lines[i:i] = lines[i:j]
    return "".join(lines_ended(lines))


def lines_exchanged(rng, text, lines):
    i, j = rng.randrange(len(lines)), rng.randrange(len(lines))
    lines[i], lines[j] = lines[j], lines[i]
    return "".join(lines_ended(lines))


def text_cut(rng, text, lines):
    return text[:rng.randrange(len(text))]


def one_byte(rng, text, lines):
    i = rng.randrange(len(text))
    new = rng.choice([" ", "\n", "\r", "\t", "\0", "-", "+", "0", "9", "m", "/"])
    return text[:i] + new + text[rng.choice([i, i + 1]):]


def lines_ended(lines):
    return [line + "\n" for line in lines]


def of_the_form(rng, text, lines):
    """Mostly of the form, with another meaning: a plan, a cost, a bound, a scale, a leaf."""
    return fuzz.altered_cert(rng, text)


# ---- the parts of one split are exchanged

def splits_of(node):
    if isinstance(node, certs.Split):
        return [node] + splits_of(node.first) + splits_of(node.second)
    return []


def parts_exchanged(rng, cert):
    splits = splits_of(cert.tree)
    if not splits:
        return None
    split = rng.choice(splits)
    split.first, split.second = split.second, split.first
    text = certs.write_cert(cert)
    split.first, split.second = split.second, split.first
    return text


SPOILED = [one_number, one_number, one_sign, one_multiplier, one_multiplier, one_word, one_line, one_split, one_split,
           lines_left_out, lines_doubled, lines_exchanged, text_cut, one_byte, of_the_form, of_the_form]


def texts_of(rng, cert):
    """A kind and a text, as many as are asked for."""
    text = certs.write_cert(cert)
    yield "whole", text
    for _ in range(10):
        kind = rng.choice(SPOILED)
        yield kind.__name__, kind(rng, text, text.splitlines())
    yield "parts_exchanged", parts_exchanged(rng, cert)
