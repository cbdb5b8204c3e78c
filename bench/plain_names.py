"""Which node of a plan's document the text of an identifier names, by docs/MEANING.md ("Evidence and names") and docs/FORMATS.md ("Identifiers"), said plainly,
over the bindings of the plan's operators: for bench/named. It knows nothing of mixq's code."""
import re

from tolled_plans import SKIP, Made, Plan, Tolled, accepts, holds, key_of, read_path, step

NUMBER = r"(?:0|[1-9][0-9]*)"
PLACE = rf"{NUMBER}(?:\.{NUMBER})*"
LEVEL = rf"{NUMBER}(?:\({PLACE}(?:,{PLACE})*\))?"
TEXT = re.compile(rf"-|{LEVEL}(?:/{LEVEL})*(?::{PLACE})?")


def place_of(spelled):
    return tuple(int(number) for number in spelled.split("."))


def read_text(spelled):
    """The levels of a text, each a number and its places, and the place below them; None where it is of no form."""
    if not TEXT.fullmatch(spelled) or any(int(number) >= 2 ** 64 for number in re.findall(r"\d+", spelled)):
        return None
    if spelled == "-":
        return [], ()
    levels, _, inside = spelled.partition(":")
    found = []
    for level in levels.split("/"):
        number, _, places = level.rstrip(")").partition("(")
        found.append((int(number), [place_of(place) for place in places.split(",")] if places else []))
    return found, place_of(inside) if inside else ()


def reach(spelled):
    """How far the places of a text reach together: each by its length and its numbers."""
    levels, inside = read_text(spelled)
    return sum(len(place) + sum(place) for _, places in levels for place in places) + len(inside) + sum(inside)


class Names:
    """What the texts of a plan name."""

    def __init__(self, plan):
        self.plan = plan
        self.makers = {out: number for number in range(len(plan.lines)) for _, _, out in [plan.parts(number)] if out}

    def on_way(self, n):
        """The operators on the way of evidence of one: it and its inputs, but not below one group of all."""
        word, rest, _ = self.plan.parts(n)
        inputs = [] if word == "groupBy" and "{}" in rest else self.plan.inputs(n)
        return sorted({n}.union(*(self.on_way(number) for number in inputs)))

    def held(self, n):
        """The keys that an operator holds."""
        word, rest, out = self.plan.parts(n)
        if word in ("project", "groupBy"):
            return Plan.keys(re.search(r"\{.*?\}", rest).group())
        below = [key for number in self.plan.inputs(n) for key in self.held(number)]
        return below + [out] if word in ("source", "getDescendants") else below

    def root_of(self, variable):
        """The document node below which the nodes of a variable lie."""
        word, rest, _ = self.plan.parts(self.makers[variable])
        return self.plan.documents[rest] if word == "source" else self.root_of(rest.split(" ")[1])

    def evidence(self, n, places):
        """The nodes that these places give to variables, where that is right evidence of an operator; else None."""
        way = self.on_way(n)
        visits = [number for number in way if self.plan.parts(number)[0] == "getDescendants"]
        if len(visits) != len(places):
            return None
        nodes, ways = {}, {}
        for number in way:
            word, rest, out = self.plan.parts(number)
            if word == "source":
                nodes[out], ways[out] = self.plan.documents[rest], ()
        for number, place in zip(visits, places):
            _, _, out = self.plan.parts(number)
            nodes[out], ways[out] = below_at(self.root_of(out), place), place
        if any(node is None for node in nodes.values()) or not all(self.is_right(number, nodes, ways) for number in way):
            return None
        return nodes

    def is_right(self, n, nodes, ways):
        """Whether an operator on the way holds of the nodes."""
        word, rest, out = self.plan.parts(n)
        if word == "getDescendants":
            _, start, path = rest.split(" ")
            begin, place = ways[start], ways[out]
            if place[: len(begin)] != begin or len(place) == len(begin):
                return False
            path, node = read_path(path), nodes[start]
            for index in place[len(begin):]:
                node = node.kids[index]
                path = step(path, node.label)
            return accepts(path)
        if word == "select":
            return holds(tuple(rest.split(" ")[1:]), nodes)
        return word != "join" or all(holds(test, nodes) for test in Plan.tests(" ".join(rest.split(" ")[2:])))

    def listing(self, variable):
        """How the list of a variable is made: of pieces over a binding, or of a piece over the members of a group; None where it is no list."""
        if variable not in self.makers:
            return None
        number = self.makers[variable]
        word, rest, _ = self.plan.parts(number)
        if word == "concatenate":
            return "pieces", Plan.pieces(rest.split(" ", 1)[1])
        if word == "groupBy":
            spelled = re.search(r"\{.*?\}", rest).group()
            return "group", self.plan.inputs(number)[0], Plan.keys(spelled), Plan.pieces(rest[rest.index("}") + 1:])[0]
        return None

    def inner(self, piece):
        """How the list below the element that a piece shows is made; None where it shows none."""
        if piece not in self.makers:
            return None
        word, rest, _ = self.plan.parts(self.makers[piece])
        return self.listing(rest.split(" ")[2]) if word == "createElement" else None

    def member(self, group, here, places):
        """The member of a group to which places lead: its index, and its binding with the evidence."""
        _, n, keys, _ = group
        row, at_hand = here
        nodes = self.evidence(n, places)
        if nodes is None or key_of(nodes, keys) != key_of(at_hand, keys):
            return None
        bindings = [event for event in self.plan.events(n) if event is not SKIP and key_of(event, keys) == key_of(row, keys)]
        held = self.held(n)
        found = [(index, binding) for index, binding in enumerate(bindings) if key_of(binding, held) == key_of(nodes, held)]
        if len(found) > 1:
            raise ValueError("two bindings agree by the keys that their operator holds")
        return (found[0][0], (found[0][1], nodes)) if found else None

    def picked(self, listing, level, here):
        """The tree to which a level leads: its index in the list, its binding with the evidence, and its piece; None where it leads to none."""
        number, places = level
        if listing[0] == "group":
            found = self.member(listing, here, places) if number == 0 else None
            return found and (*found, listing[3])
        pieces, (row, _) = listing[1], here
        if number >= len(pieces):
            return None
        before = sum(len(Plan.trees(piece, row).items) for piece in pieces[:number])
        of_piece = self.listing(pieces[number])
        if of_piece is None:
            return None if places else (before, here, pieces[number])
        if of_piece[0] == "pieces":
            return None
        found = self.member(of_piece, here, places)
        return found and (before + found[0], found[1], of_piece[3])

    def led(self, listing, levels, inside, here):
        """The place, counted from a list, to which levels and a place below lead; None where they lead to none."""
        if listing is None or not levels:
            return None
        if listing[0] == "pieces" and levels[0][0] < len(listing[1]) and not levels[0][1]:
            within = self.listing(listing[1][levels[0][0]])
            if within is not None and within[0] == "pieces":
                before = sum(len(Plan.trees(piece, here[0]).items) for piece in listing[1][: levels[0][0]])
                found = self.led(within, levels[1:], inside, here)
                return found and (before + found[0], *found[1:])
        found = self.picked(listing, levels[0], here)
        if found is None:
            return None
        index, there, piece = found
        if len(levels) > 1:
            below = self.led(self.inner(piece), levels[1:], inside, there)
            return below and (index, *below)
        value = there[0].get(piece)
        if isinstance(value, (Made, Tolled)) or piece not in self.makers:
            return None if inside else (index,)
        return None if below_at(value, inside) is None else (index, *inside)

    def named(self, spelled):
        """The place of the node that a text of some form names; None where it names none."""
        levels, inside = read_text(spelled)
        if not levels:
            return ()
        _, rest, _ = self.plan.parts(len(self.plan.lines) - 1)
        under, outer = rest.split(" ")
        row = next(event for event in self.plan.events(int(under)) if event is not SKIP)
        return self.led(self.inner(outer), levels, inside, (row, {}))


def below_at(node, place):
    """The node at a place below a source's node; None where there is none."""
    for index in place:
        if index >= len(node.kids):
            return None
        node = node.kids[index]
    return node
