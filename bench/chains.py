"""Plan texts of many operators one over another, of one kind each: for bench/plans and bench/stack."""
SOURCES = "source s bracket doc chunk 10\n"
DOCUMENT = "s[r[a[x]],r[a[y]]]"
KINDS = ("select", "project", "orderBy", "groupBy", "getDescendants", "join", "rightJoin", "concatenate", "createElement")


def one(kind, at, below):
    """The lines of one more operator of a kind, the first of number at, over another: for a join with what stands on its other side, on its right a source, on the
    left of a rightJoin a visit of one."""
    if kind == "join":
        return [f"{at} source s -> ${at + 10}", f"{at + 1} join {below} {at}"]
    if kind == "rightJoin":
        return [f"{at} source s -> ${at + 10}", f"{at + 1} getDescendants {at} ${at + 10} s -> ${at + 11}", f"{at + 2} join {at + 1} {below}"]
    words = {
        "select": 'select {0} $2 < "b"',
        "project": "project {0} {{$2,label $2}}",
        "orderBy": "orderBy {0} $2 asc",
        "groupBy": "groupBy {0} {{$2}} $2 -> ${1}",
        "getDescendants": "getDescendants {0} $2 _ -> ${1}",
        "concatenate": "concatenate {0} $2 -> ${1}",
        "createElement": "createElement {0} e $3 -> ${1}",
    }[kind]
    return [f"{at} " + words.format(below, at + 10)]


def chain(kind, count):
    """A plan of so many operators, or one fewer, most of them of a kind and one over another."""
    lines = ["0 source s -> $1", "1 getDescendants 0 $1 s.r.a -> $2"]
    if kind == "createElement":
        lines.append("2 concatenate 1 $2 -> $3")
    while len(lines) + len(one(kind, 0, 0)) + 3 <= count:
        lines += one(kind, len(lines), len(lines) - 1)
    top = len(lines)
    return "\n".join([*lines, f"{top} groupBy {top - 1} {{}} $2 -> $4", f"{top + 1} createElement {top} all $4 -> $5", f"{top + 2} tupleDestroy {top + 1} $5", ""])
