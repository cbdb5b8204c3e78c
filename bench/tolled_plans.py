"""What plans mean by docs/MEANING.md ("Plans", "Fronts", "Tolls"), said plainly: the events of each operator, and the document with its tolls; and small
random documents and views. For bench/tolls, bench/named and bench/stacks. It knows nothing of mixq's code."""
import re
import subprocess
import sys

SKIP = None


class Node:
    """A node of a source's document: its label, its children, and a number of its own."""
    count = 0

    def __init__(self, label, kids):
        self.label, self.kids = label, kids
        Node.count += 1
        self.number = Node.count


class Made:
    """A made element: its label and its list."""
    def __init__(self, label, kids):
        self.label, self.kids = label, kids


class Tolled:
    """A list with tolls: what it costs to reach each tree from the one before, and to learn that the list ends."""
    def __init__(self, items, end):
        self.items, self.end = items, end

    def then(self, other):
        if not other.items:
            return Tolled(self.items, self.end + other.end)
        first = (self.end + other.items[0][0], other.items[0][1])
        return Tolled(self.items + [first] + other.items[1:], other.end)

    def after(self, cost):
        return Tolled([], cost).then(self)


def below(tree):
    """The list of a tree: one fill a step below a source's node, and its own below what was made."""
    if isinstance(tree, Made):
        return tree.kids
    return Tolled([(1, kid) for kid in tree.kids], 1)


def text(tree):
    label = tree.label if re.fullmatch(r"[\w.:/@#+$%-]+", tree.label) else '"%s"' % tree.label
    kids = [text(kid) for _, kid in below(tree).items]
    return label + ("[" + ",".join(kids) + "]" if kids else "")


# Paths, by derivatives: a label, any label (None), "empty", "never", and sequences, choices and repetitions.
def read_path(spelled):
    tokens = re.findall(r"[()|.*+?]|[^()|.*+?]+", spelled)
    place = 0

    def choice():
        nonlocal place
        found = [sequence()]
        while place < len(tokens) and tokens[place] == "|":
            place += 1
            found.append(sequence())
        return found[0] if len(found) == 1 else ("or", found)

    def sequence():
        nonlocal place
        found = [repeated()]
        while place < len(tokens) and tokens[place] == ".":
            place += 1
            found.append(repeated())
        path = found[-1]
        for part in reversed(found[:-1]):
            path = ("then", part, path)
        return path

    def repeated():
        nonlocal place
        if tokens[place] == "(":
            place += 1
            path = choice()
            place += 1
        else:
            path = ("label", None if tokens[place] == "_" else tokens[place])
            place += 1
        while place < len(tokens) and tokens[place] in "*+?":
            mark = tokens[place]
            path = {"*": ("star", path), "+": ("then", path, ("star", path)), "?": ("or", [path, ("empty",)])}[mark]
            place += 1
        return path

    return choice()


def accepts(path):
    kind = path[0]
    if kind == "or":
        return any(accepts(part) for part in path[1])
    if kind == "then":
        return accepts(path[1]) and accepts(path[2])
    return kind in ("star", "empty")


def goes_on(path):
    """Whether some list of one label or more is described."""
    kind = path[0]
    if kind == "or":
        return any(goes_on(part) for part in path[1])
    if kind == "then":
        one, two = path[1], path[2]
        return (goes_on(one) and (goes_on(two) or accepts(two))) or (accepts(one) and goes_on(two))
    if kind == "star":
        return goes_on(path[1])
    return kind == "label"


def step(path, label):
    kind = path[0]
    if kind == "label":
        return ("empty",) if path[1] in (None, label) else ("never",)
    if kind == "or":
        return ("or", [step(part, label) for part in path[1]])
    if kind == "star":
        return ("then", step(path[1], label), path)
    if kind == "then":
        first = ("then", step(path[1], label), path[2])
        return ("or", [first, step(path[2], label)]) if accepts(path[1]) else first
    return ("never",)


def visit(path, trees):
    """The events of the visit of these trees: a node or a skip for each, what is below it where the path goes on, and a skip at the end."""
    for tree in trees:
        after = step(path, tree.label)
        yield tree if accepts(after) else SKIP
        if goes_on(after):
            yield from visit(after, tree.kids)
    yield SKIP


def key_of(binding, keys):
    return tuple(binding[k[6:]].label if k.startswith("label ") else binding[k].number for k in keys)


def holds(test, binding):
    left, relation, right = test
    if relation == "is":
        return binding[left] is binding[right]
    one, two = order_key(binding[left].label), order_key(binding[right].label if right.startswith("$") else right.strip('"'))
    return {"=": one == two, "!=": one != two, "<": one < two, "<=": one <= two, ">": one > two, ">=": one >= two}[relation]


def order_key(label):
    return (0, int(label), label) if re.fullmatch(r"\d+", label) else (1, 0, label)


class Plan:
    """A plan by its text, over the documents of its sources."""
    def __init__(self, lines, documents):
        self.documents = documents
        self.lines = [line.split(" ", 1)[1] for line in lines]
        self.found = {}

    def parts(self, n):
        line = self.lines[n]
        word, rest = line.split(" ", 1)
        out = None
        if " -> " in rest:
            rest, out = rest.rsplit(" -> ", 1)
        return word, rest, out

    def inputs(self, n):
        word, rest, _ = self.parts(n)
        if word == "source":
            return []
        return [int(number) for number in rest.split(" ")[: 2 if word == "join" else 1]]

    @staticmethod
    def keys(spelled):
        return [key for key in spelled.strip("{}").split(",") if key]

    @staticmethod
    def tests(spelled):
        return [tuple(test.split(" ")) for test in spelled.split(" AND ")] if spelled else []

    def front(self, n):
        """The variables of an operator's front, and whether it is whole."""
        word, rest, out = self.parts(n)
        if word == "source":
            return [], True
        if word == "join":
            (left, whole), (right, other) = (self.front(i) for i in self.inputs(n))
            return left + right if whole else left, whole and other
        vars, whole = self.front(self.inputs(n)[0])
        if word == "getDescendants":
            return vars + [out] if whole else vars, whole
        if word == "orderBy":
            return [], False
        if word in ("project", "groupBy"):
            keys = self.keys(re.search(r"\{.*?\}", rest).group())
            if word == "groupBy" and not keys:
                return [], True
            shared = self.shared(keys, vars)
            return shared, self.cover(keys, shared)
        return vars, whole

    @staticmethod
    def shared(keys, vars):
        found = []
        for var in vars:
            if var not in keys:
                break
            found.append(var)
        return found

    @staticmethod
    def cover(keys, vars):
        return all(key.removeprefix("label ") in vars for key in keys)

    def events(self, n):
        if n not in self.found:
            self.found[n] = list(self.make_events(n))
        return self.found[n]

    def make_events(self, n):
        word, rest, out = self.parts(n)
        if word == "source":
            yield {out: self.documents[rest]}
            return
        over = self.events(self.inputs(n)[0])
        if word == "getDescendants":
            _, start, path = rest.split(" ")
            path = read_path(path)
            for event in over:
                yield SKIP
                if event is not SKIP:
                    for found in visit(path, event[start].kids):
                        yield SKIP if found is SKIP else {**event, out: found}
        elif word == "join":
            tests = self.tests(" ".join(rest.split(" ")[2:]))
            right = self.events(self.inputs(n)[1])
            for event in over:
                yield SKIP
                if event is not SKIP:
                    for other in right:
                        pair = other if other is SKIP else {**event, **other}
                        yield pair if pair is not SKIP and all(holds(t, pair) for t in tests) else SKIP
        elif word == "select":
            test = tuple(rest.split(" ")[1:])
            for event in over:
                yield event if event is not SKIP and holds(test, event) else SKIP
        elif word == "orderBy":
            _, var, direction = rest.split(" ")
            yield from (SKIP for _ in over)
            rows = [event for event in over if event is not SKIP]
            yield from sorted(rows, key=lambda row: order_key(row[var].label), reverse=direction == "desc")
        elif word == "project":
            seen = set()
            keys = self.keys(rest.split(" ", 1)[1])
            for event in over:
                key = SKIP if event is SKIP else key_of(event, keys)
                yield SKIP if key is SKIP or key in seen else event
                seen.add(key)
        elif word == "groupBy":
            yield from self.groups(n, rest, out, over)
        elif word == "concatenate":
            for event in over:
                if event is SKIP:
                    yield SKIP
                else:
                    found = Tolled([], 0)
                    for piece in self.pieces(rest.split(" ", 1)[1]):
                        found = found.then(self.trees(piece, event))
                    yield {**event, out: found}
        elif word == "createElement":
            _, label, var = rest.split(" ")
            for event in over:
                yield event if event is SKIP else {**event, out: Made(label, event[var])}

    @staticmethod
    def pieces(spelled):
        return re.findall(r'label \$\w+|\$\w+|"[^"]*"', spelled)

    @staticmethod
    def trees(piece, binding):
        """The trees of a piece."""
        if piece.startswith('"'):
            return Tolled([(0, Made(piece.strip('"'), Tolled([], 0)))], 0)
        if piece.startswith("label "):
            return Tolled([(0, Made(binding[piece[6:]].label, Tolled([], 0)))], 0)
        value = binding[piece]
        return value if isinstance(value, Tolled) else Tolled([(0, value)], 0)

    def groups(self, n, rest, out, over):
        spelled = re.search(r"\{.*?\}", rest).group()
        keys = self.keys(spelled)
        piece = self.pieces(rest[rest.index("}") + 1:])[0]
        if not keys:
            found, cost = Tolled([], 0), 0
            for event in over:
                cost += 1
                if event is not SKIP:
                    found = found.then(self.trees(piece, event).after(cost))
                    cost = 0
            yield {out: found.then(Tolled([], cost))}
            return
        vars, _ = self.front(self.inputs(n)[0])
        stops = self.cover(keys, self.shared(keys, vars))
        seen = set()
        for place, event in enumerate(over):
            key = SKIP if event is SKIP else key_of(event, keys)
            if key is SKIP or key in seen:
                yield SKIP
                continue
            seen.add(key)
            found, cost = self.trees(piece, event), 0
            for other in over[place + 1:]:
                cost += 1
                if other is not SKIP and key_of(other, keys) == key:
                    found = found.then(self.trees(piece, other).after(cost))
                    cost = 0
                elif other is not SKIP and stops:
                    break
            yield {**event, out: found.then(Tolled([], cost))}

    def document(self):
        _, rest, _ = self.parts(len(self.lines) - 1)
        under, var = rest.split(" ")
        return next(event for event in self.events(int(under)) if event is not SKIP)[var]


def run(program, folder, *words):
    done = subprocess.run([program, *words], cwd=folder, capture_output=True, text=True)
    if done.returncode != 0:
        sys.exit(f"mixq {' '.join(words)} ends with {done.returncode}: {done.stdout}{done.stderr} in {folder}")
    return done.stdout.splitlines()


def forest(made, depth):
    return [Node(made.choice("abc"), forest(made, depth - 1) if depth else []) for _ in range(made.randint(0, 3))]


def spell(node):
    return node.label + ("[" + ",".join(spell(kid) for kid in node.kids) + "]" if node.kids else "")


BRACKET_PATHS = ["s.a", "s._", "s._.a", "s.(a|b)", "s.a*.b", "s._*.c", "s.(a.b|c)"]
BELOW_PATHS = ["a", "_", "_*.b", "(b|c)", "a.b", "_._"]


def random_view(made):
    """A rule: what it makes, its conditions, and perhaps an order."""
    if made.random() < 0.5:
        first = [f"s {made.choice(BRACKET_PATHS)} $A", f"$A {made.choice(BELOW_PATHS)} $B"]
    else:
        first = ["t t.row $A", f"$A {made.choice(['x', 'y', '_'])}._ $B"]
    second = ["t t.row $C", f"$C {made.choice(['x', 'y'])}._ $D"]
    order = made.choice(["", "", "", " ORDER BY $B", " ORDER BY $B DESC"])
    kind = made.randrange(6)
    if kind == 0:
        return f"CONSTRUCT <r> $A </r> WHERE {first[0]}"
    if kind == 1:
        return f"CONSTRUCT <r> <e> $B </e> {{$A,$B}} </r> WHERE {' AND '.join(first)}{order}"
    if kind == 2:
        return f"CONSTRUCT <r> <e> $A $B {{$B}} </e> {{$A}} </r> WHERE {' AND '.join(first)}{order}"
    if kind == 3:
        return f"CONSTRUCT <r> <e> label $B $A {{$A}} </e> {{label $B}} </r> WHERE {' AND '.join(first)}{order}"
    if kind == 4:
        return f"CONSTRUCT <r> <e> $A $C {{$C}} </e> {{$A}} </r> WHERE {' AND '.join(first + second)} AND $B {made.choice(['=', '!='])} $D"
    return f"CONSTRUCT <r> <e> $B </e> {{$B}} <f> $C </f> {{$C}} </r> WHERE {' AND '.join(first + second)}"
