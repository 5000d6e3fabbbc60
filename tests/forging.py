"""Random changes of good tokens."""
import base64
import json
import string

from providers import encoded

# A moment of the tokens that are changed.
NOW = 1_800_000_000
ALPHABET = string.ascii_letters + string.digits + "-_"


def decoded(part):
    return base64.urlsafe_b64decode(part + "=" * (-len(part) % 4))


def edit(text, chance):
    """A text with one or two random edits of its letters."""
    for _ in range(chance.choice([1, 1, 1, 2])):
        at = chance.randrange(len(text) + 1)
        letter = chance.choice(chance.choice([ALPHABET, ALPHABET, ".=+/ \n\x00é"]))
        text = chance.choice([
            lambda: text[:at] + letter + text[at + 1:], lambda: text[:at] + letter + text[at:],
            lambda: text[:at] + text[at + 1:], lambda: text[:at] + text[at:at + 4].swapcase() + text[at + 4:],
            lambda: text[:at], lambda: text[at:], lambda: text[:at] + text[at:at + 9] + text[at:]])()
    return text


def changed_value(value, chance):
    """A value of JSON with one change somewhere within."""
    if isinstance(value, dict) and value and chance.random() < 0.9:
        name = chance.choice([*value])
        kept = {it: value[it] for it in value if it != name}
        return chance.choice([lambda: value | {name: changed_value(value[name], chance)}, lambda: kept,
                              lambda: kept | {name.upper(): value[name]}, lambda: value | {"admin": True}])()
    return chance.choice([None, True, 0, -1, NOW, 2 ** 63, 1e300, "", "root", [value], {"a": value}, [],
                          f"{value} ", str(value)[:-1], str(value) + "x", value and [value, "x"]])


def mutation(tokens, chance):
    """A random change of a good token: of its text, its bytes, its JSON, or its parts, by those of others."""
    token = chance.choice(tokens)
    parts = token.split(".")
    at = chance.randrange(3)
    data = decoded(parts[at])

    def with_part(new):
        return ".".join(new if number == at else it for number, it in enumerate(parts))

    def of_bits():
        bit = chance.randrange(8 * len(data))
        return with_part(encoded((int.from_bytes(data) ^ 1 << bit).to_bytes(len(data))))

    def of_value():
        value = changed_value(json.loads(data), chance) if at < 2 else bytes(chance.choices(range(256), k=len(data)))
        return with_part(encoded(value))

    return chance.choice([
        lambda: edit(token, chance), of_bits, of_value,
        lambda: with_part(chance.choice(tokens).split(".")[at]), lambda: with_part(parts[chance.randrange(3)]),
        lambda: with_part(encoded(edit(data.decode("latin-1"), chance).encode())),
    ])()


def meaning(token):
    """The decoded header, claims and signature of a token, read as leniently as can be."""
    parts = [base64.urlsafe_b64decode("".join(it for it in part if it in ALPHABET) + "==") for part in token.split(".")]
    return [json.loads(it) for it in parts[:2]] + parts[2:]
