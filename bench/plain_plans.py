"""What plans of docs/FORMATS.md ("Plans") mean by docs/MEANING.md, said plainly, operator by operator: for bench/hand_plans. It knows nothing of mixq's code."""
import collections
import functools
import re

# A node of a source's document, one object for each place, or a made element.
Tree = collections.namedtuple("Tree", "label below")
# An operator, with what may stand in its line in this order. Keys and pieces are pairs of "value", "label" or "text" with a variable or a text.
Operator = collections.namedtuple("Operator", "number word inputs name variable path direction keys pieces tests out", defaults=[()] + [None] * 5 + [(), (), None])


def quoted(label):
    return '"' + re.sub(r'[\\"\n\t]', lambda found: {"\n": "\\n", "\t": "\\t"}.get(found[0], "\\" + found[0]), label) + '"'


def spelling(label):
    return label if re.fullmatch(r"(?:[A-Za-z0-9_.:/@#+$%-]|[^\x00-\x7f])+", label) else quoted(label)


def text(tree):
    """The canonical bracket text."""
    return spelling(tree.label) + ("[" + ",".join(map(text, tree.below)) + "]" if tree.below else "")


def order(label):
    """Labels compare as these do: numerals first, by their numbers, and all by bytes."""
    return (0, int(label), label.encode()) if re.fullmatch(r"-?[0-9]{1,18}", label) else (1, 0, label.encode())


# Paths: ("label", label), ("any",), ("then", members), ("or", members) and ("mark", member, mark).
def path_text(path, parted=()):
    """The canonical text, in parentheses where the path is of a kind that is parted from what is around it."""
    if path[0] in parted:
        return f"({path_text(path)})"
    if path[0] in ("then", "or"):
        return {"then": ".", "or": "|"}[path[0]].join(path_text(inner, ("then", "or") if path[0] == "then" else ("or",)) for inner in path[1])
    if path[0] == "mark":
        return path_text(path[1], ("then", "or", "mark")) + path[2]
    return "_" if path[0] == "any" else path[1] if re.fullmatch(r"[A-Za-z0-9_-]+", path[1]) and path[1] != "_" else quoted(path[1])


def ends(path, labels, starts):
    """Where lists of labels end that begin at one of the starts and that the path describes."""
    if path[0] in ("label", "any"):
        return {start + 1 for start in starts if start < len(labels) and (path[0] == "any" or labels[start] == path[1])}
    if path[0] == "or":
        return set().union(*(ends(inner, labels, starts) for inner in path[1]))
    if path[0] == "then":
        return functools.reduce(lambda found, inner: ends(inner, labels, found), path[1], starts)
    found = new = ends(path[1], labels, starts)
    while path[2] != "?" and new:
        new = ends(path[1], labels, new) - found
        found = found | new
    return found if path[2] == "+" else found | starts


def under(tree, labels=()):
    """The nodes below a node in document order, each with the labels on the way."""
    for inner in tree.below:
        yield inner, (*labels, inner.label)
        yield from under(inner, (*labels, inner.label))


def trees(piece, binding):
    """The trees of a piece, or of a variable."""
    value = binding.get(piece[1])
    return value if piece[0] == "value" and isinstance(value, list) else [value if piece[0] == "value" else Tree(value.label if piece[0] == "label" else piece[1], [])]


def holds(test, binding):
    left, sign, (sort, what) = test
    if sign == "is":
        return binding[left] is binding[what]
    one, other = order(binding[left].label), order(binding[what].label if sort == "value" else what)
    return {"=": one == other, "!=": one != other, "<": one < other, "<=": one <= other, ">": one > other, ">=": one >= other}[sign]


def bindings_of(op, inputs, documents):
    """The bindings of an operator, from those of its inputs; an error where there are more of them, or larger ones, than are worth the time."""
    below = inputs[0] if inputs else []
    if op.word == "source":
        found = [{op.out: documents[op.name]}]
    elif op.word == "getDescendants":
        found = [{**b, op.out: node} for b in below for node, labels in under(b[op.variable]) if len(labels) in ends(op.path, labels, {0})]
    elif op.word in ("select", "join"):
        pairs = below if op.word == "select" else ({**left, **right} for left in below for right in inputs[1])
        found = [b for b in pairs if all(holds(test, b) for test in op.tests)]
    elif op.word == "orderBy":
        found = sorted(below, key=lambda b: order(b[op.variable].label), reverse=op.direction == "desc")
    elif op.word == "concatenate":
        found = [{**b, op.out: [tree for piece in op.pieces for tree in trees(piece, b)]} for b in below]
    elif op.word == "createElement":
        found = [{**b, op.out: Tree(op.name, b[op.variable])} for b in below]
    else:
        groups = {} if op.keys or op.word == "project" else {(): []}
        for b in below:
            groups.setdefault(tuple(id(b[variable]) if sort == "value" else b[variable].label for sort, variable in op.keys), []).append(b)
        found = [{variable: members[0][variable] for _, variable in op.keys} for members in groups.values()]
        for b, members in zip(found, groups.values() if op.word == "groupBy" else ()):
            b[op.out] = [tree for member in members for tree in trees(op.pieces[0], member)]
    if len(found) > 80 or sum(1 for b in found for variable in b for tree in trees(("value", variable), b) for _ in under(tree)) > 5_000:
        raise OverflowError
    return found


def document_of(ops, documents):
    """The document of a valid plan."""
    found = []
    for op in ops[:-1]:
        found.append(bindings_of(op, [found[number] for number in op.inputs], documents))
    (binding,) = found[ops[-1].inputs[0]]
    return text(binding[ops[-1].variable])


def plan_text(ops):
    """The canonical text of operators."""
    def spelled(pair):
        return quoted(pair[1]) if pair[0] == "text" else ("label " if pair[0] == "label" else "") + pair[1]
    lines = []
    for op in ops:
        keys = None if op.keys is None else "{" + ",".join(map(spelled, op.keys)) + "}"
        tests = " AND ".join(f"{left} {sign} {spelled(right)}" for left, sign, right in op.tests) or None
        words = [op.number, op.word, *op.inputs, op.name, op.variable, op.path and path_text(op.path), op.direction, keys, *map(spelled, op.pieces), tests]
        lines.append(" ".join(str(word) for word in words + ["->", op.out] * bool(op.out) if word is not None) + "\n")
    return "".join(lines)


def renamed(op, names):
    """An operator with other variables in the place of some."""
    def pairs(found):
        return found and [(sort, what if sort == "text" else names.get(what, what)) for sort, what in found]
    tests = [(names.get(left, left), sign, *pairs([right])) for left, sign, right in op.tests]
    return op._replace(variable=names.get(op.variable, op.variable), out=names.get(op.out, op.out), keys=pairs(op.keys), pieces=pairs(op.pieces), tests=tests)


def used(op):
    """The variables that an operator uses, each with the kinds that it may have."""
    found = [(op.variable, [{"createElement": "list", "tupleDestroy": "element"}.get(op.word, "node")])] if op.variable else []
    pairs = [*(op.keys or []), *(pair for left, _, right in op.tests for pair in (("value", left), right))]
    pieces = [(what, ["node"] + (["element"] + ["list"] * (op.word == "concatenate")) * (sort == "value")) for sort, what in op.pieces if sort != "text"]
    return found + [(what, ["node"]) for sort, what in pairs if sort != "text"] + pieces


def known_of(op, inputs):
    """The kinds of an operator's variables, and whether it has a single binding, from what is known of its inputs."""
    kinds = {variable: kind for kinds, _ in inputs[::-1] for variable, kind in kinds.items()}
    kept = kinds if op.keys is None else {variable: kinds[variable] for _, variable in op.keys if variable in kinds}
    out = {op.out: {"source": "node", "getDescendants": "node", "createElement": "element"}.get(op.word, "list")} if op.out else {}
    passes = op.word in ("source", "project", "concatenate", "createElement") or (op.word == "join" and not op.tests)
    return {} if op.word == "tupleDestroy" else {**kept, **out}, (passes and all(single for _, single in inputs)) or (op.word == "groupBy" and not op.keys)


def refusal(ops, sources):
    """Why operators are no plan, or None where they are one."""
    variables = [[variable for variable, _ in used(op)] + [op.out] * bool(op.out) for op in ops]
    count = len({variable for each in variables for variable in each if not variable[1:].isdigit()})
    known, bound, taken, sound = [], set(), [], []
    for op in ops:
        kinds = {variable: kind for number in op.inputs[::-1] for variable, kind in (known[number][0] if number < len(known) else {}).items()}
        taken += op.inputs
        fits = all(kinds.get(variable) in wanted for variable, wanted in used(op)) and not any(sign == "is" and right[0] == "text" for _, sign, right in op.tests)
        sound.append(fits and op.out not in bound and len(set(taken)) == len(taken))
        bound |= {op.out} - {None}
        known.append(known_of(op, [known[number] for number in op.inputs if number < len(known)]))
    checks = {
        "wrong number": lambda place, op: op.number == place and all(number < place for number in op.inputs),
        "unknown source": lambda place, op: op.word != "source" or op.name in sources,
        "variable out of range": lambda place, op: not any(variable[1:].isdigit() and int(variable[1:]) < count for variable in variables[place]),
        "not valid": lambda place, op: sound[place],
        "wrong end": lambda place, op: (op.word == "tupleDestroy") == (place + 1 == len(ops)),
        "unused": lambda place, op: place in taken or place + 1 == len(ops),
        "not a single element": lambda place, op: place + 1 < len(ops) or known[op.inputs[0]][1],
    }
    found = ((why, place) for why, check in checks.items() for place, op in enumerate(ops) if not check(place, op))
    why, place = next(found, (None, 0))
    return why if why in (None, "wrong end", "not a single element") else f"{why} in line {place + 1}"
