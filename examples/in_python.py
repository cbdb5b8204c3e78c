"""Answers a script on a document that a program in python made by itself, knowing nothing of mixq: what mixq has to answer too. A document is a
label and a list of documents."""
import re


def leaf(label):
    return (label, [])


def spelling(label):
    """The canonical spelling of a label of printable characters."""
    bare = re.fullmatch(r"(?:[A-Za-z0-9_.:/@#+$%-]|[^\x00-\x7f])+", label)
    return label if bare else '"' + label.replace("\\", "\\\\").replace('"', '\\"') + '"'


def text(document):
    """The canonical bracket text."""
    label, below = document
    return spelling(label) + ("[" + ",".join(map(text, below)) + "]" if below else "")


def node(document, place):
    """The part at a place; None where there is none."""
    for step in place:
        if step >= len(document[1]):
            return None
        document = document[1][step]
    return document


def find(document, words, at):
    """The place that a command asks for; None where there is none."""
    if words[2] == "root":
        return ()
    place = at[words[3]]
    if words[2] == "down":
        return place + (0,)
    if not place:
        return None
    if words[2] == "right":
        return place[:-1] + (place[-1] + 1,)
    siblings = node(document, place[:-1])[1]
    later = (number for number in range(place[-1] + 1, len(siblings)) if spelling(siblings[number][0]) == words[4])
    return next((place[:-1] + (number,) for number in later), None)


def answer(document, script, text_of=None, named=None):
    """Prints the answer to each line of a script of one client whose names all hold nodes. Where the script has identifiers, `text_of` tells the text by
    which steps from the root know the node at a place, and `named` the place of the node that a text names, or None; a name that a text gave has that text."""
    at, texts = {}, {}
    for line in script:
        words = line.split()
        if not words or words[0].startswith("#"):
            continue
        if words[0] == "fetch":
            print("label", spelling(node(document, at[words[1]])[0]))
            continue
        if words[0] == "print":
            print("text", text(node(document, at[words[1]])))
            continue
        if words[0] == "id":
            print("id", texts.get(words[1]) or text_of(at[words[1]]))
            continue
        if words[2] == "at":
            place = named(words[3])
            if place is not None:
                at[words[0]], texts[words[0]] = place, words[3]
            print("foreign" if place is None else "node")
            continue
        place = find(document, words, at)
        found = place is not None and node(document, place) is not None
        at[words[0]], texts[words[0]] = place if found else None, None
        print("node" if found else "none")
