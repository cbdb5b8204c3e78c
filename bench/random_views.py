"""Small random documents and views, the finished document of a view with what steps in it cost at most, and scripts with the answers that they should have, by
docs/MEANING.md ("Plans", "Tolls", "Evidence and names", "Scripts and the transcript"): for bench/named and bench/stacks. It knows nothing of mixq's code."""
import collections
import functools
import itertools
import json
import os
import sqlite3

from plain_names import Names, reach, read_text
from tolled_plans import SKIP, Node, Plan, Tolled, below, read_path, run, spell, text, visit

# A view whose document has more nodes isn't taken, nor one with an operator of more events, and seldom one with fewer nodes.
NODES, EVENTS, FEW = 90, 3_000, 8
VALUES = "123"


# ---- documents

def leaves(names, values):
    return [Node(name, [] if value is None else [Node(value, [])]) for name, value in zip(names, values)]


def forest(pick, depth):
    return [Node(pick.choice("abc"), forest(pick, depth - 1)) for _ in range(pick.choice([0, 1, 2, 2, 3]))] if depth else [Node(pick.choice(VALUES + "a"), [])]


def json_value(pick, depth):
    """A value, as python has it, and the nodes that stand for it."""
    kind = pick.choice([0, 0, 1, 1, 2]) if depth else 2
    if kind == 0:
        members = {name: json_value(pick, depth - 1) for name in pick.sample("abc", pick.randint(1, 3))}
        return {name: value for name, (value, _) in members.items()}, [Node(name, nodes) for name, (_, nodes) in members.items()]
    if kind == 1:
        members = [json_value(pick, depth - 1) for _ in range(pick.choice([0, 2, 2, 3]))]
        return [value for value, _ in members], [Node("item", nodes) for _, nodes in members]
    value = pick.choice([*VALUES, "a", None])
    return value, [] if value is None else [Node(value, [])]


def write(folder, name, content):
    with open(os.path.join(folder, name), "w", encoding="utf-8") as file:
        file.write(content)


def write_table(folder, rows):
    name = os.path.join(folder, "u.db")
    if os.path.exists(name):
        os.remove(name)
    file = sqlite3.connect(name)
    file.execute("CREATE TABLE u (id INTEGER PRIMARY KEY, x TEXT NOT NULL, z INTEGER)")
    file.executemany("INSERT INTO u VALUES (?, ?, ?)", [(3 * number, x, z and int(z)) for number, (x, z) in enumerate(rows)])
    file.commit()
    file.close()


def random_sources(pick, folder):
    """Writes the files of a source of each kind; answers their catalog and their documents."""
    bracket, (value, nodes) = Node("s", forest(pick, 3)), json_value(pick, 3)
    rows = [[pick.choice(VALUES) for _ in "xy"] for _ in range(pick.choice([0, 2, 3, 4, 5]))]
    records = [[pick.choice(VALUES), pick.choice([*VALUES, None])] for _ in range(pick.choice([0, 2, 3, 4, 5]))]
    write(folder, "s", spell(bracket))
    write(folder, "t.csv", "x,y\n" + "".join(",".join(row) + "\n" for row in rows))
    write(folder, "j.json", json.dumps(value))
    write_table(folder, records)
    catalog = f"source s bracket s chunk {pick.randint(1, 3)}{pick.choice(['', ' deep'])}\nsource t csv t.csv columns x,y chunk {pick.randint(1, 3)}\n"
    catalog += f"source u table u.db u key id columns x!,z chunk {pick.randint(1, 3)}\nsource j json j.json chunk {pick.randint(1, 3)}\n"
    tables = [Node(name, [Node("row", leaves(columns, row)) for row in found]) for name, columns, found in (("t", "xy", rows), ("u", "xz", records))]
    return catalog, {root.label: Node("", [root]) for root in (bracket, *tables, Node("j", nodes))}


# ---- views

def ways(node, labels=()):
    """The nodes below a node, each with the labels on the way."""
    for kid in node.kids:
        yield (*labels, kid.label), kid
        yield from ways(kid, (*labels, kid.label))


def random_path(pick, labels):
    """A path, most often one that describes these labels and others."""
    parts = [pick.choice([label, label, "_", "_", f"({label}|b)", f"{label}+"]) for label in labels]
    if pick.random() < 0.15:
        parts[pick.randrange(len(parts))] = "_+"
    return ".".join(parts)


def matches(node, spelled):
    """The nodes below a node that a path describes."""
    return [found for found in visit(read_path(spelled), node.kids) if found is not SKIP]


def random_conditions(pick, documents, sources):
    """The conditions of a rule over these sources, and its variables."""
    words, nodes, of_source = [], {}, {}
    for source in sources:
        own = []
        for _ in range(pick.choice([1, 2, 2, 3])):
            start = pick.choice(own) if own else source
            starts = nodes[start] if own else [documents[source]]
            found = [way for node in starts for way in ways(node)]
            found = found if own else [way for way in found if len(way[0]) > 1 and (way[1].kids or pick.random() < 0.3)] or found
            if found:
                path, variable = random_path(pick, pick.choice(found)[0]), "ABCDEFGHI"[len(nodes)]
                words.append(f"{'$' * bool(own)}{start} {path} ${variable}")
                nodes[variable] = [node for start in starts for node in matches(start, path)]
                own.append(variable)
        of_source[source] = [variable for variable in own if not any(node.kids for node in nodes[variable])] or own
    for number in range(1, len(sources)):
        left, right = pick.choice(of_source[sources[number - 1]]), pick.choice(of_source[sources[number]])
        both = {node.label for node in nodes[left]} & {node.label for node in nodes[right]}
        words.append(f"${left} {pick.choice(['=', '=', '=', '<'] if both else ['!='])} ${right}")
    if pick.random() < 0.1:
        left, right = pick.choice(sorted(nodes)), pick.choice(sorted(nodes))
        words.append(f"${left} {pick.choice(['=', '!=', '<', '>='])} " + (f"${right}" if left != right else f'"{pick.choice(VALUES)}"'))
    return words, sorted(nodes)


def random_keys(pick, variables, count):
    return {pick.choice(["", "", "label "]) + f"${pick.choice(variables)}" for _ in range(count)}


def random_item(pick, variables, force, depth):
    """An item of an element inside which these keys are in force."""
    variable, kind = pick.choice(variables), pick.random()
    if kind < 0.1:
        return '"k"'
    if kind < 0.6 or not depth:
        shown = pick.choice(["", "label "]) + f"${variable}"
        stands = shown in force or f"${variable}" in force
        keys = set() if stands and pick.random() < 0.7 else {pick.choice([shown, f"${variable}"])} | random_keys(pick, variables, pick.choice([0, 0, 1]))
    else:
        keys = random_keys(pick, variables, pick.choice([0, 1, 1, 1, 2]))
        name, items = pick.choice("efg"), random_items(pick, variables, force | keys, depth - 1)
        shown = f"<{name}> {items} </{name}>"
    return f"{shown} {{{','.join(sorted(keys))}}}"


def random_items(pick, variables, force, depth):
    return " ".join(random_item(pick, variables, force, depth) for _ in range(pick.choice([1, 1, 2, 2, 3])))


def random_rule(pick, documents, sources):
    conditions, variables = random_conditions(pick, documents, sources)
    order = pick.choice(["", "", "", f" ORDER BY ${pick.choice(variables)}", f" ORDER BY ${pick.choice(variables)} DESC"])
    return f"CONSTRUCT <r> {random_items(pick, variables, set(), pick.choice([0, 1, 2, 2, 3]))} </r> {{}} WHERE {' AND '.join(conditions)}{order}\n"


class SmallPlan(Plan):
    """A plan that is worth the time; an error where it isn't."""

    def events(self, n):
        if n not in self.found:
            self.found[n] = list(itertools.islice(self.make_events(n), EVENTS + 1))
            if len(self.found[n]) > EVENTS:
                raise OverflowError
        return self.found[n]


def plan_of(program, folder, view, documents):
    return SmallPlan(run(program, folder, "plan", view, "catalog")[:-1], documents)


def as_node(tree):
    return Node(tree.label, [as_node(kid) for _, kid in below(tree).items])


def dearest(tree):
    """What a step costs at most in a document."""
    found = below(tree)
    return max(1, found.end, *(toll for toll, _ in found.items), *(dearest(kid) for _, kid in found.items)) if found.items else max(1, found.end)


# ---- the finished document, and scripts on it

class Finished:
    """The finished document of a view: its nodes by their places, what steps between them cost at most, and what texts name."""

    def __init__(self, plan):
        document = plan.document()
        self.at, self.names = {(): (document, Tolled([(0, document)], 0), 0)}, Names(plan)
        self.named = functools.cache(self.names.named)
        self.add((), document)

    def add(self, place, tree):
        siblings = below(tree)
        for index, (_, kid) in enumerate(siblings.items):
            self.at[(*place, index)] = (kid, siblings, index)
            if len(self.at) > NODES:
                raise OverflowError
            self.add((*place, index), kid)

    def tree(self, place):
        return self.at[place][0]

    def step(self, way, place):
        """Where a step leads, None where there is no node, and its toll."""
        tree, siblings, index = self.at[place]
        there, index = (below(tree), 0) if way == "down" else (siblings, index + 1)
        if index >= len(there.items):
            return None, there.end
        return ((*place, 0) if way == "down" else (*place[:-1], index)), there.items[index][0]

    def charge(self, place):
        """What the walk to a place costs at most."""
        walk = [(place[:depth], index) for depth, index in enumerate(place)]
        return sum(self.step("down", above)[1] + sum(self.step("right", (*above, left))[1] for left in range(index)) for above, index in walk)

    def select(self, place, label):
        """Where a search leads, and its toll."""
        found, toll = self.step("right", place)
        while found is not None and self.tree(found).label != label:
            found, more = self.step("right", found)
            toll += more
        return found, toll

    def print_toll(self, place):
        found, toll = self.step("down", place)
        while found is not None:
            toll += self.print_toll(found)
            found, more = self.step("right", found)
            toll += more
        return toll


class Held:
    """What a name holds: a place, and the text that named it, where one did."""

    def __init__(self, place, spelled=None):
        self.place, self.spelled = place, spelled


class Script:
    """Lines, what each is answered, and how many fills they may ask together, up to each line. An `id` is answered by the text of a place."""

    def __init__(self, finished):
        self.finished, self.lines, self.wanted, self.names, self.walked, self.bound, self.bounds = finished, [], [], {}, {None}, 0, []

    def say(self, client, line, wanted):
        self.lines.append(f"{client}: {line}" if client else line)
        self.bounds.append(self.bound)
        self.wanted.append(("" if wanted == "no form" or not client else f"{client}: ", wanted))

    def root(self, client, name):
        self.say(client, f"{name} = root", "node")
        self.names[client, name] = Held(())

    def read(self, client, name, spelled):
        """An `at`; whether the text names a node."""
        if read_text(spelled) is None:
            self.say(client, f"{name} = at {spelled}", "no form")
            return False
        self.bound += reach(spelled)
        place = self.finished.named(spelled)
        self.say(client, f"{name} = at {spelled}", "foreign" if place is None else "node")
        if place is not None:
            self.names[client, name] = Held(place, spelled)
        return place is not None

    def pay(self, held, toll):
        """What a step from a node may ask: its toll, and where it is the first from a text's node, the walk there."""
        self.bound += toll + (0 if held.spelled in self.walked else self.finished.charge(held.place))
        self.walked.add(held.spelled)

    def step(self, client, word, name, origin, label=None):
        """A `down`, a `right` or a `select`."""
        line = f"{name} = {word} {origin}" + (f" {label}" if label else "")
        held = self.names.get((client, origin))
        if held is None:
            self.say(client, line, "no node")
            return
        place, toll = self.finished.select(held.place, label) if label else self.finished.step(word, held.place)
        self.pay(held, toll)
        self.say(client, line, "none" if place is None else "node")
        self.names[client, name] = None if place is None else Held(place)

    def tell(self, client, word, origin):
        """A `fetch`, a `print` or an `id`."""
        held = self.names.get((client, origin))
        tree = held and self.finished.tree(held.place)
        if held and word == "print":
            self.pay(held, self.finished.print_toll(held.place))
        answers = {"fetch": lambda: f"label {tree.label}", "print": lambda: f"text {text(tree)}", "id": lambda: held.place}
        self.say(client, f"{word} {origin}", answers[word]() if held else "no node")

    def wander(self, pick, client, name, count):
        """Random steps, the first from the node of this name."""
        for _ in range(count):
            word, new = pick.choice(["down", "down", "right", "right", "select", "fetch", "id", "print"]), pick.choice(["x", "y", "z", name])
            if word == "select":
                held = self.names.get((client, name))
                siblings = self.finished.at[held.place][1].items if held else []
                self.step(client, word, new, name, pick.choice([kid.label for _, kid in siblings] + ["a", "1"]))
            elif word in ("down", "right"):
                self.step(client, word, new, name)
            else:
                self.tell(client, word, name)
            name = pick.choice([name, new, "x", "y", "z"])


def visit_all(pick, finished, word):
    """A script that goes to every node in some order, and asks a word of each, as `id`."""
    script, reached, later, ahead = Script(finished), {(): "n0"}, [], []
    script.root("", "n0")
    script.tell("", word, "n0")
    ahead = [("down", ())]
    while ahead:
        way, origin = ahead.pop(pick.randrange(len(ahead)))
        place, name = finished.step(way, origin)[0], f"n{len(reached)}"
        script.step("", way, name, reached[origin])
        if place is not None:
            reached[place] = name
            ahead += [("down", place), ("right", place)]
            later.append(name)
            while later and pick.random() < 0.6:
                script.tell("", word, later.pop(pick.randrange(len(later))))
    for name in later:
        script.tell("", word, name)
    return script


# ---- what came

class Differs(Exception):
    """What came of a view and isn't so."""


def compare(finished, script, answers):
    """The texts that were answered to `id`, by their lines; an error where an answer isn't the one that is wanted."""
    if len(answers) != len(script.lines):
        raise Differs(f"{len(answers)} answers to {len(script.lines)} lines; the last is {answers[-1:]}")
    texts = {}
    for number, (line, answer, (client, wanted)) in enumerate(zip(script.lines, answers, script.wanted)):
        if isinstance(wanted, tuple):
            spelled = answer.removeprefix(f"{client}id ")
            if spelled == answer or read_text(spelled) is None or finished.named(spelled) != wanted:
                raise Differs(f"line {number + 1}, {line}: {answer}, which isn't a text of the node at {wanted}")
            texts[number] = spelled
        elif answer != client + wanted:
            raise Differs(f"line {number + 1}, {line}: {answer}, and not {client}{wanted}")
    return texts


class Runs:
    """The program, a folder, and what was counted."""

    def __init__(self, program, folder):
        self.program, self.folder, self.counts = program, folder, collections.Counter()

    def counted(self, finished, script, most):
        """The texts of a script, run by `count`; its fills are within its bound."""
        write(self.folder, "script", "".join(line + "\n" for line in script.lines))
        *answers, _, fills, _, _ = run(self.program, self.folder, "count", "view", "catalog", "script")
        texts = compare(finished, script, answers)
        fills = int(fills.split()[1])
        self.counts["fills"] += fills
        self.counts["may be asked"] += script.bound * most
        if fills > script.bound * most:
            raise Differs(f"{fills} fills are asked, and {script.bound} times {most} may be")
        return texts
