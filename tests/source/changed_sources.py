"""Sources with one change each."""
import random

PIECES = [
    "(", ")", "{", "}", ",", ";", "=", "==", "!=", "<", "<=", ">", ">=", "+", "-", "*", "/", "%", "++", "+=", "&&", "||", "!", "..", ":", "'", '"',
    "let", "if", "else", "for", "in", "return", "break", "continue", "put", "del", "emit", "abort", "prefetch", "get", "rev", "num_of", "text_of",
    "program", "rule", "finally", "start", "step", "txn", "grant", "begin", "max", "at", "as", "limit", "after", "from", "0", "1", "17", "1001",
    "9223372036854775808", "4294967296", '""', '"a"', '"\\q"', "v0", "v15", "v16", "x", "n", "é", "//", "\n", "Serializable",
]


def pieces_of(text):
    """Returns a text's pieces: words, numbers, texts, signs and what stands between them."""
    pieces, word = [], ""
    for character in text:
        if character.isalnum() or character in "_":
            word += character
            continue
        if word:
            pieces.append(word)
            word = ""
        pieces.append(character)
    return pieces + ([word] if word else [])


def changed(seed, text):
    """Returns a text with one piece left out, doubled, put in, moved or in the place of another."""
    dice = random.Random(seed)
    pieces = pieces_of(text)
    at = dice.randrange(len(pieces))
    while pieces[at].isspace():
        at = dice.randrange(len(pieces))
    match dice.randrange(6):
        case 0:
            del pieces[at]
        case 1:
            pieces.insert(at, pieces[at])
        case 2:
            pieces.insert(at, f" {dice.choice(PIECES)} ")
        case 3:
            pieces[at] = f" {dice.choice(PIECES)} "
        case 4:
            pieces[at] = dice.choice([it for it in pieces if not it.isspace()])
        case 5:
            del pieces[at + 1 :]
    return "".join(pieces)
