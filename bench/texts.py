"""Texts to measure with, the same ones each time."""
import random

CHANCE = random.Random("letters and accents")

# Common words, those with accents about as frequent among them as in print.
GERMAN = """der die und in den von zu das mit sich des auf für ist im dem nicht ein Die eine als
auch es an werden aus er hat daß sie nach wird bei einer Der um am sind noch wie einem über
einen Das so Sie zum war haben nur oder aber vor zur bis mehr durch man sein wurde sei hatte kann
gegen vom können schon wenn habe seine Mark ihre dann unter wir soll ich eines Jahr zwei Jahren
diese dieser wieder keine Uhr seiner worden will zwischen Im immer Millionen Ein was sagte
Straße größer während fünf Präsident München""".split()
CZECH = """a se v na je že s z do o k i by pro jsem to ale si za tak po jako jeho byl ve co od
nebo jsou při jen když už až být bylo podle mezi která které který roku také však před
má může této není jejich byla první práce člověk města přes dobře říci takže
další nový české země většina můžeme během další něco každý příliš své tím
své děti část žena dům čas život místo slovo otázka ruka hlava oči""".split()

HUNGARIAN = """a az és hogy nem is egy volt ez csak de meg mint már el még ha van azt ki mert
vagy fel úgy majd minden lehet kell sem volna így igen amely első két között után szerint
több nagy magyar idő év ember őket később rég jó új két három ötven hűség győr
könyv őszi fű felé élet világ ország kormány törvény művészet köszönöm tűz víz
erdő hegyek gyerekek általános következő különböző""".split()


def text(size, accent):
    """Letters and spaces, about one letter in eight with the accent before it, if there is one."""
    out = bytearray()
    while len(out) < size - 3:
        if accent and CHANCE.random() < 0.125:
            out += accent + bytes([CHANCE.choice(b"aeiou")])
        else:
            out.append(CHANCE.choice(b"abcdefghijklmnopqrstuvwxyz "))
    return bytes(out)


def words(size, vocabulary):
    """Words of a language by chance, in UTF-8."""
    out = bytearray()
    while len(out) < size - 32:
        out += f"{CHANCE.choice(vocabulary)} ".encode()
    return bytes(out)


def again(size, letters):
    """The same letters again and again, in UTF-8."""
    return letters.encode() * (size // len(letters.encode()))


def with_parity(text):
    """Seven-bit text with even parity."""
    return bytes(byte if byte.bit_count() % 2 == 0 else byte | 0x80 for byte in text)
