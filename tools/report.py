"""What is said of a level that was compiled, in a designer's words."""

from compiler import LEAKS
import maptext

# leaves that a leaf sees on average, coarsely, from which on the full visibility takes hours
OPEN = 2000


def verdict(answer, text):
    """Whether the level is sealed, and how much is seen; or what leaks."""
    if answer.status == LEAKS:
        return f"leak: the outside reaches {entity(text, answer.entity)}"
    begun = "sealed" if answer.verdict == "sealed" else "not sealed, since no entity stands in the open"
    leaves = answer.counts["numbered"]
    sees = f", each sees {average(answer)} on average" if leaves else ""
    return f"{begun}; {leaves} open {'leaf' if leaves == 1 else 'leaves'}{sees}"


def average(answer):
    """How many leaves a leaf sees on average, rounded to a whole number."""
    seen, leaves = answer.counts["seen"], answer.counts["numbered"]
    return (2 * seen + leaves) // (2 * leaves)


def is_open(answer):
    """Whether so much is seen that the full visibility takes hours."""
    return answer.counts["numbered"] > 0 and average(answer) > OPEN


def entity(text, number):
    """An entity by its class, its name, and where it stands."""
    found = maptext.entities(text)[number]
    words = [words_of(found.value(b"classname") or b"an entity without a class")]
    name, origin = found.value(b"targetname"), found.value(b"origin")
    if name:
        words.append(f'"{words_of(name)}"')
    return " ".join([*words, "at", *words_of(origin).split(), f"(entity {number})"])


def words_of(value):
    """The value of a key as words."""
    return "".join(letter if letter.isprintable() else "?" for letter in value.decode(errors="replace"))
