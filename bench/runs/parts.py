"""Measures single crates by the program bench/programs/measures: tables whose rows have one form.

Each column is the difference of two runs, divided by the number of items. A run is named PART/CASE/SIZE/TIMES.
"""
from running import counted, memory, part

PROGRAM_NAME = "measures"


def instructions(program, less, more, count):
    """Returns the instructions of one item more, as a string."""
    return f"{(counted(program, more) - counted(program, less)) / count:.1f}"


def memory_of(program, less, more, count):
    """Returns the bytes of memory of one item more, as a string."""
    return f"{(memory(program, more) - memory(program, less)) * 1024 / count:.1f}"


def table(*columns):
    """Prints a row of columns."""
    print("".join(f"{it:>14}" for it in columns), flush=True)


def ancestor_search(program, sizes):
    """Measures the search of a hierarchy: instructions of one query, for each edge.

    Arguments: numbers of entities (1,000 and 10,000).
    """
    table("shape", "entities", "query", "an edge")
    for shape in ("chain", "tree", "layers", "cycle"):
        for size in sizes or (1000, 10_000):
            edges = 10 * size if shape == "layers" else size
            built = f"ancestor_search/{shape}-cyclic/{size}/0"
            for query in ("ancestors", "is_ancestor", "cyclic"):
                answered = f"ancestor_search/{shape}-{query}/{size}/1"
                table(shape, size, query, instructions(program, built, answered, edges))


def ancestor_cache(program, sizes):
    """Measures the ancestor cache: instructions for each entity of a build (parents first), for a put at the bottom and in the
    middle, and for a query for one ancestor and for a cycle; and bytes of memory for an entity.

    In a chain and in layers lists of ancestors are long, so these are measured up to 1,000 entities. A put in the middle
    of a tree rewrites the lists of its descendants. Puts at the bottom are a tenth of the entities, and 100 at least.

    Arguments: numbers of entities (100 to 100,000).
    """
    table("shape", "entities", "build", "bottom", "middle", "ancestor", "cycle", "bytes")
    for shape in ("tree", "chain", "layers"):
        for size in sizes or (100, 1000, 10_000, 100_000):
            if shape != "tree" and size > 1000:
                continue
            run = f"ancestor_cache/{shape}"
            none, built = f"{run}-cyclic/0/0", f"{run}-cyclic/{size}/0"
            puts = size // 10 if size > 1000 else 100
            works = (("bottom", puts), ("middle", 10), ("is_ancestor", 1000), ("least_cycle", 1000))
            each = [instructions(program, built, f"{run}-{case}/{size}/{times}", times) for case, times in works]
            table(shape, size, instructions(program, none, built, size), *each, memory_of(program, none, built, size))


def policy_grammar(program, counts):
    """Measures the parsing of policy files: instructions and bytes of memory for each byte of a file.

    A part is a policy, an action of one policy's list or an annotation of one policy; in the texts from `string` on, which
    cost the lexer most, a character or a few. The cost of making the text is subtracted.

    Arguments: numbers of parts (1,000 and 10,000).
    """
    kinds = ("policies", "named", "conditions", "actions", "annotations", "string", "escapes", "comment", "comments",
             "colons", "word", "words", "number", "blanks", "unclosed")
    table("kind", "count", "bytes", "answer", "a byte", "memory a byte")
    for kind in kinds:
        for count in counts or (1000, 10_000):
            made, parsed = (f"policy_grammar/{kind}/{count}/{times}" for times in (0, 1))
            size, answer = (int(program.printed(it).split()[1]) for it in (made, parsed))
            table(kind, count, size, answer, instructions(program, made, parsed, size),
                  memory_of(program, made, parsed, size))


def stamped_store(program, sizes):
    """Measures the store: instructions for each name.

    `take` fills one store. The others are differences to a run without the work: a merge of two stores with the same names;
    `ties`, the same with equal counts, so that sites are compared; a look-up; a comparison; and a step of an iteration.

    Arguments: numbers of names (1,000, 10,000 and 100,000).
    """
    table("names", "take", "merge", "ties", "get", "below", "iter")
    for size in sizes or (1000, 10_000, 100_000):
        def run(case, times=0, of=size):
            return f"stamped_store/{case}/{of}/{times}"
        pairs = ((run("fill", of=0), run("fill")), (run("two"), run("merge", 1)), (run("two"), run("ties", 1)),
                 (run("get"), run("get", 1)), (run("two"), run("below", 1)), (run("fill"), run("iter", 1)))
        table(size, *(instructions(program, less, more, size) for less, more in pairs))


def values(program, sizes):
    """Measures sets: instructions for each value that is inserted and that is looked up, and bytes of memory for each.

    Arguments: numbers of values (10,000 and 100,000).
    """
    table("size", "made", "found", "bytes")
    for size in sizes or (10_000, 100_000):
        none, made, found = "values/numbers/0/0", f"values/numbers/{size}/0", f"values/numbers/{size}/1"
        table(size, instructions(program, none, made, size), instructions(program, made, found, size),
              memory_of(program, none, made, size))


PARTS = {it.__name__: it for it in (ancestor_search, ancestor_cache, policy_grammar, stamped_store, values)}
DOCUMENTS = {name: it.__doc__ for name, it in PARTS.items()}


def measure(name, words):
    """Runs the measure of this name at these sizes."""
    PARTS[name](part(PROGRAM_NAME), [int(it) for it in words])
