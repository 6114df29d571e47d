"""Fills the tables of docs/performance.md and of the whole program in bench/report.md in one run.

    python3 bench/runs page [ROW ..]             measures these rows (default: all), and writes both pages
    python3 bench/runs page --program [ROW ..]   the same; of the rows with a plain engine it measures the program alone
    python3 bench/runs page --list               prints the rows with their names
    python3 bench/runs page --check              measures nothing; its status is 1 if a page has other rows than this script

The rows of docs/performance.md compare the program with a plain engine. If PLAIN names a plain engine with the same
commands, these rows are measured with both programs. Without PLAIN they stay unchanged; with --program the rows in
instructions and memory get the program's new number, and its ratio to the plain engine's number on the page, which is of a
run over other files. Times depend on the machine, so they are measured only with PLAIN. PROGRAM names another binary.
Needs valgrind and GNU time.
"""
import datetime
import json
import os
import re
import statistics
import subprocess
import sys
import tempfile
import textwrap
import time
from decisions import WORDS, write_inputs
from running import COUNTING, TIMING, TOP, Ended, Link, Program, Served, collected, request, resident, whole

COMPARED, WHOLE = f"{TOP}/docs/performance.md", f"{TOP}/bench/report.md"
HEADS = {COMPARED: "| what | unit | program | plain | ratio |\n|---|---|---|---|---|\n",
         WHOLE: "| what, of the whole program | policies | entities | Ir, or as said | by |\n|---|---|---|---|---|\n"}
TESTS = 'principal has age && principal.age > 3 && resource == Doc::"d" && action == Action::"view"'
SCHEMA = {"": {
    "entityTypes": {"User": {"memberOfTypes": ["Group"]}, "Group": {"memberOfTypes": ["Group"]}, "Doc": {}},
    "actions": {"view": {"appliesTo": {"principalTypes": ["User"], "resourceTypes": ["Doc"]}}}}}


def compact(value):
    return json.dumps(value, separators=(",", ":"), sort_keys=True)


# ---- rows by the other measures

def printed(program, measure, *words, **more):
    """Returns the rows that another measure prints, each as a list of words. If `program` is None, it builds its own."""
    environment = {**os.environ, **more, "PROGRAM": program}
    if program is None:
        del environment["PROGRAM"]
    ran = subprocess.run([sys.executable, f"{TOP}/bench/runs", measure, *words], env=environment, capture_output=True,
                         text=True, check=False)
    if ran.returncode != 0:
        sys.exit(f"{measure} {' '.join(words)}: expected status 0, got {ran.returncode}: {ran.stderr}")
    return [line.split() for line in ran.stdout.splitlines()]


def authorized(program, policies, entities, **more):
    """Returns the instructions of one request more at a site."""
    return float(printed(program, "site", "authorize", f"{policies} {entities}", **more)[-1][2]) * 1e6


def put(program, kind, count):
    """Returns the instructions of one put more."""
    return next(float(it[2]) for it in printed(program, "site", "put", str(count)) if it[1] == kind)


def taken(program, count):
    """Returns the instructions of an update with which a site starts."""
    return float(printed(program, "site", "take", str(count))[-1][2])


def stored(kind):
    """Returns the bytes of memory of a stored name, including its message."""
    rows = (" ".join(it) for it in printed(None, "site_caches", "memory"))
    return int(next(re.search(rf"^10000 {kind}.*: (\d+) bytes", it) for it in rows if it.startswith(f"10000 {kind}"))[1])


def merged(program):
    """Returns the instructions of an entry that is read, applied and written."""
    return sum(float(it[2]) for it in printed(program, "messages", "1000")[1:])


# ---- `decide`

def deciding(command, policies, entities, condition):
    """Returns the run of a decision over so many policies and entities, which must succeed."""
    with tempfile.TemporaryDirectory() as folder:
        os.environ["CONDITION"] = condition
        write_inputs(folder, policies, entities)
        ran = Ended([*command, *WORDS], folder)
        if ran.status != 0:
            sys.exit(f"decide: expected status 0, got {ran.status}: {ran.err}")
        return ran


def decided(program, policies, entities, condition=""):
    """Returns the instructions of a decision."""
    return collected(deciding((*COUNTING, program), policies, entities, condition).err)


def memory(program, policies, entities, condition=""):
    """Returns the greatest resident memory of a decision, in MiB."""
    return resident(deciding((*TIMING, program), policies, entities, condition).err) / 1024


def one_more(program, less, more, condition=""):
    """Returns the instructions of one policy or entity more."""
    first, second = (decided(program, *it, condition) for it in (less, more))
    return (second - first) / (sum(more) - sum(less))


def graph(program, edges):
    """Returns the milliseconds of processor time of a decision over 10,000 groups in layers, with so many edges each."""
    def uid(kind, number):
        return {"type": kind, "id": f"{kind[0].lower()}{number}"}

    with tempfile.TemporaryDirectory() as folder:
        os.environ["CONDITION"] = ""
        write_inputs(folder, 10, 0)
        found = []
        for n in range(10_000):
            first = n - n % edges
            found.append({"uid": uid("Group", n), "parents": [uid("Group", it) for it in range(first - edges, first) if it >= 0]})
        found.append({"uid": uid("User", 5), "parents": [uid("Group", 9999)]})
        with open(f"{folder}/entities.json", "w", encoding="utf-8") as file:
            json.dump([{**it, "attrs": {}} for it in found], file)
        return min(Ended([program, *WORDS], folder).seconds for _ in range(5)) * 1000


def started(program):
    """Returns the median of the milliseconds of a run of `--help`, by the clock."""
    found = []
    for _ in range(50):
        began = time.perf_counter()
        Ended([program, "--help"])
        found.append((time.perf_counter() - began) * 1000)
    return statistics.median(found)


# ---- served, over loopback

def policy(number):
    """Returns a policy, of five shapes in turn: three name a principal, a group or an action, two have a condition."""
    scope = (f'principal == User::"u{number}", action, resource', f'principal in Group::"g{number % 100}", action, resource',
             f'principal, action == Action::"view", resource == Doc::"d{number}"', "principal, action, resource",
             "principal is User, action, resource")[number % 5]
    test = "" if number % 5 < 3 else f' when {{ principal == User::"u{number}" }}'
    return f"permit({scope}){test};"


def entity(number):
    kind = "Group" if number < 100 else "User"
    parents = [{"id": f"g{number % 100}", "type": "Group"}] if number >= 100 else []
    return {"attrs": {}, "parents": parents, "uid": {"id": f"{kind[0].lower()}{number}", "type": kind}}


def asked_empty(program, folder, what):
    """Returns the state or the summary of an empty site, and writes the schema into the folder."""
    with open(f"{folder}/schema", "w", encoding="utf-8") as file:
        json.dump(SCHEMA, file)
    with Served([program], folder) as site:
        link = Link(site.port)
        _, body = link.ask(request("GET", f"/v1/{what}"))[0]
        link.close()
        return body


def state(program, folder, policies, entities):
    """Returns a state of so many policies and entities, under the schema of the folder."""
    found = [({"policy": f"p{n}"}, policy(n)) for n in range(policies)]
    found += [({"entity": it["uid"]}, compact(it)) for it in map(entity, range(entities))]
    entries = [{"body": body, "count": n + 1, "name": name, "site": "00002"} for n, (name, body) in enumerate(found)]
    return compact({**json.loads(asked_empty(program, folder, "state")), "entries": entries}).encode()


def asking(number):
    asked = {"principal": f'User::"u{number}"', "action": 'Action::"view"', "resource": 'Doc::"d"'}
    return request("POST", "/v1/authorize", compact(asked).encode())


def putting(number):
    made = entity(number)
    return request("PUT", "/v1/entities", compact(made).encode())


def served(program, policies, entities, make, times=2000, together=1):
    """Returns the microseconds of a request at a site with so many policies and entities, and the site's memory in KiB."""
    with tempfile.TemporaryDirectory() as folder:
        sent = state(program, folder, policies, entities)
        with open(f"{folder}/state", "wb") as file:
            file.write(sent)
        with Served([program], folder, "--state", "state") as site:
            link, began = Link(site.port), time.perf_counter()
            for turn in range(times):
                for status, body in link.ask(*(make(turn * together + n) for n in range(together))):
                    if status != 200:
                        sys.exit(f"expected status 200, got {status}: {body!r}")
            took, kib = time.perf_counter() - began, site.peak()
            link.close()
        return took / times / together * 1e6, kib


def site_memory(program):
    """Returns the greatest resident memory, in MiB, of a site after 10,000 puts of policies, 50 at a time."""
    with tempfile.TemporaryDirectory() as folder:
        with open(f"{folder}/schema", "w", encoding="utf-8") as file:
            file.write(compact(SCHEMA))
        with Served([program], folder) as site:
            link = Link(site.port)
            for first in range(0, 10_000, 50):
                puts = (request("PUT", f"/v1/policies/p{n}", policy(n).encode()) for n in range(first, first + 50))
                for status, body in link.ask(*puts):
                    if status != 200:
                        sys.exit(f"expected status 200, got {status}: {body!r}")
            kib = site.peak()
            link.close()
        return kib / 1024


def merge_milliseconds(program, count):
    """Returns the milliseconds of processor time of `merge` of two states that share a half."""
    return float(printed(program, "service", "merge", str(count))[-1][3]) * 2 * count / 1000


def message_merged(program):
    """Returns the milliseconds of a merge of 1,000 entries at an empty site."""
    with tempfile.TemporaryDirectory() as folder:
        sent = request("POST", "/v1/merge", state(program, folder, 500, 500))
    return served(program, 0, 0, lambda n: sent, 1)[0] / 1000


def written(program, what):
    """Returns the milliseconds of a summary, or of a state, of 1,000 names."""
    return served(program, 500, 500, lambda n: request("GET", f"/v1/{what}"), 20)[0] / 1000


def delta_written(program):
    """Returns the milliseconds of a delta of 1,000 names, against the summary of an empty site."""
    with tempfile.TemporaryDirectory() as folder:
        summary = asked_empty(program, folder, "summary")
    return served(program, 500, 500, lambda n: request("POST", "/v1/delta", summary), 20)[0] / 1000


def in_turn(program):
    """Returns the microseconds of a request, where each second one is a put of an entity."""
    return served(program, 10_000, 1000, lambda n: asking(n % 1000) if n % 2 else putting(2000 + n))[0]


class Compared:
    """A row of docs/performance.md: its name, what is measured with both programs, its unit, and the measure."""

    def __init__(self, name, what, unit, measure):
        self.name, self.labels, self.unit, self.measure, self.page = name, (what, unit), unit, measure, COMPARED

    def cells(self, standing, number, plain_number):
        """Returns the row's cells: those of the page, `standing`, with the new numbers, if there are any."""
        program, plain, ratio = standing or ("", "", "")
        program = program if number is None else rounded(number)
        plain = plain if plain_number is None else rounded(plain_number)
        if number is not None and plain:
            ratio = f"{number / number_of(plain):.1f}"
        return *self.labels, program, plain, ratio


class Whole:
    """A row of bench/report.md: its name, what is measured, over how many policies and entities, its unit, the measure's
    command, and the measure."""

    def __init__(self, name, what, policies, entities, unit, how, measure):
        self.name, self.labels, self.unit, self.how, self.measure, self.page = (
            name, (what, policies, entities), unit, how, measure, WHOLE)

    def cells(self, standing, number, _):
        """Returns the row's cells: those of the page, `standing`, with the new number, if there is one."""
        text = rounded(number) if number is not None else ""
        return *self.labels, f"{text} {self.unit}".removesuffix(" Ir") if text else standing[0] if standing else "", self.how


ROWS = (
    Compared("file-policy", "a policy of a file, a scope alone", "Ir", lambda it: one_more(it, (2000, 1000), (6000, 1000))),
    Compared("file-condition", "one with four tests, parsed and evaluated", "Ir",
             lambda it: one_more(it, (2000, 1000), (6000, 1000), TESTS)),
    Compared("file-entity", "an entity of a file", "Ir", lambda it: one_more(it, (10, 4000), (10, 8000))),
    Compared("conditions-memory", "memory: 20,000 policies with four tests", "MiB", lambda it: memory(it, 20_000, 1000, TESTS)),
    Compared("policies-memory", "memory: 10,000 policies, scopes alone", "MiB", lambda it: memory(it, 10_000, 1000)),
    Compared("site-memory", "memory: a site with 10,000 policies", "MiB", site_memory),
    Compared("start", "start-up", "ms", started),
    Compared("chain", "`decide`, 10,000 groups in a chain", "ms", lambda it: graph(it, 1)),
    Compared("layers", "`decide`, 10,000 in layers, ten edges each", "ms", lambda it: graph(it, 10)),
    Compared("states-merged", "two states of 10,000 names merged", "ms", lambda it: merge_milliseconds(it, 10_000)),
    Compared("message-merged", "1,000 updates merged at a site", "ms", message_merged),
    Compared("state-written", "a state of 1,000 names written", "ms", lambda it: written(it, "state")),
    Compared("summary-written", "its summary", "ms", lambda it: written(it, "summary")),
    Compared("delta-written", "its delta", "ms", delta_written),
    Compared("put-entity-time", "a put of an entity", "us", lambda it: served(it, 0, 1000, lambda n: putting(2000 + n))[0]),
    Compared("put-policy-time", "a put of a policy", "us", lambda it: float(printed(it, "service", "put", "1000")[-1][1])),
    Compared("one-by-one", "a served decision, one by one", "us",
             lambda it: float(printed(it, "service", "authorize", "1000")[-1][1])),
    Compared("together", "32 sent at once", "us", lambda it: float(printed(it, "service", "authorize", "1000")[-1][2])),
    Compared("principals", "many principals, 10,000 policies of all shapes", "us",
             lambda it: served(it, 10_000, 1000, lambda n: asking(n % 1000), 100, 32)[0]),
    Compared("in-turn", "a put and a decision in turn, 10,000 policies", "us", in_turn),
    Whole("request-10", "one request more at a site, without HTTP; ten policies can apply", "10", "100", "Ir",
          "site authorize", lambda it: authorized(it, 10, 100)),
    Whole("request-groups", "the same, entities in ten groups", "10,000", "10,000", "Ir", "site authorize",
          lambda it: authorized(it, 10_000, 10_000, REACH="10")),
    Whole("request-tree", "the same, entities in a tree of 1,000 groups", "10,000", "10,000", "Ir", "site authorize",
          lambda it: authorized(it, 10_000, 10_000)),
    Whole("request-many-groups", "the same, entities in ten groups", "100,000", "10,000", "Ir", "site authorize",
          lambda it: authorized(it, 100_000, 10_000, REACH="10")),
    Whole("request-many-tree", "the same, entities in a tree of 1,000 groups", "100,000", "10,000", "Ir", "site authorize",
          lambda it: authorized(it, 100_000, 10_000)),
    Whole("put-policy", "a put of a policy, without HTTP", "1,000", "", "Ir", "site put", lambda it: put(it, "policy", 1000)),
    Whole("put-policy-many", "the same", "10,000", "", "Ir", "site put", lambda it: put(it, "policy", 10_000)),
    Whole("put-entity", "a put of an entity in a group, without HTTP", "", "1,000", "Ir", "site put",
          lambda it: put(it, "entity", 1000)),
    Whole("put-entity-many", "the same", "", "10,000", "Ir", "site put", lambda it: put(it, "entity", 10_000)),
    Whole("put-chain", "a put of a group below a chain of groups", "", "1,000", "Ir", "site put",
          lambda it: put(it, "chain", 1000)),
    Whole("update", "an update of a message, half policies, half entities", "500", "500", "Ir", "site take",
          lambda it: taken(it, 1000)),
    Whole("update-many", "the same", "5,000", "5,000", "Ir", "site take", lambda it: taken(it, 10_000)),
    Whole("update-memory", "its memory, for a message of 2.1 MB", "5,000", "5,000", "MiB", "site take",
          lambda it: float(printed(it, "site", "take", "10000")[-1][4]) / 1024),
    Whole("stored-policy", "a stored policy, with the message that brought it", "10,000", "", "bytes", "site_caches memory",
          lambda it: stored("policy")),
    Whole("stored-entity", "a stored entity, with the message that brought it", "", "10,000", "bytes", "site_caches memory",
          lambda it: stored("entity")),
    Whole("entry-merged", "two states merged: an entry read, applied, written", "500", "500", "Ir", "messages", merged),
    Whole("decide-entities", "`decide`: scopes alone, entities in a tree of groups", "10", "100,000 (8.98 MB)", "Ir", "decide",
          lambda it: decided(it, 10, 100_000)),
    Whole("decide-policies", "the same", "100,000 (7.27 MB)", "1,000", "Ir", "decide", lambda it: decided(it, 100_000, 1000)),
    Whole("decide-both", "the same", "100,000", "100,000", "Ir", "decide", lambda it: decided(it, 100_000, 100_000)),
    Whole("memory-entities", "its memory", "10", "100,000", "MiB", "decide", lambda it: memory(it, 10, 100_000)),
    Whole("memory-policies", "the same", "100,000", "1,000", "MiB", "decide", lambda it: memory(it, 100_000, 1000)),
    Whole("memory-both", "the same", "100,000", "100,000", "MiB", "decide", lambda it: memory(it, 100_000, 100_000)),
)
TIMES = ("ms", "us")


def rounded(number):
    """Returns a number with three significant digits, as a string."""
    if number >= 1e6:
        return f"{float(f'{number / 1e6:.3g}'):,g} M"
    return f"{float(f'{number:.3g}'):,g}" if number < 1000 else f"{int(float(f'{number:.3g}')):,}"


def standing_cells(text, row, above):
    """Returns the cells after the labels of a row, or None if the page has no such row.

    `above` is the label of the last row before it that is not `the same`.
    """
    at = text.find(row_start((above,))) if above else 0
    found = text.find(row_start(row.labels), max(at, 0))
    if found < 0:
        return None
    line = text[found : text.index("\n", found)]
    return [it.strip() for it in line.strip("|").split("|")][len(row.labels) :]


def row_start(labels):
    return "".join(f"| {it} " if it else "| " for it in labels) + "|"


def table(path, text, measured, measured_plain):
    """Returns the table of a page, with the new numbers of both programs, by the names of rows."""
    lines, above = [], ""
    for row in (it for it in ROWS if it.page == path):
        above = above if row.labels[0].startswith("the same") else row.labels[0]
        cells = row.cells(standing_cells(text, row, above), measured.get(row.name), measured_plain.get(row.name))
        lines.append(row_start(cells))
    return HEADS[path] + "\n".join(lines) + "\n"


def number_of(cell):
    """Returns the number of a cell."""
    number = re.match(r"([\d,.]+)( M\b)?", cell)
    return float(number[1].replace(",", "")) * (1e6 if number[2] else 1)


def with_table(path, text, measured, measured_plain):
    """Returns the text of a page with the new numbers of both programs."""
    head = re.escape(HEADS[path].partition("\n")[0])
    made = table(path, text, measured, measured_plain)
    return re.sub(rf"^{head}\n(?:\|.*\n)*", lambda _: made, text, count=1, flags=re.M)


def with_day(text, plain, is_alone):
    """Returns the text of a page that gives today as the day of its measurements."""
    now = datetime.date.today()
    day = f"{now.day} {now:%B %Y}"
    if plain:
        said = (f"Measured: both programs on {day}; times are medians of nine runs in turn: `decide` and `merge` in processor "
                "time, others by the clock, served ones from a Python client.")
    elif is_alone:
        said = (f"Measured: instructions and memory of the program on {day}; the plain engine and times earlier, over files of "
                "the same kind, so that ratios are approximate.")
    else:
        said = "Measured: both programs in one earlier run, over files of the same kind, by processor time."
    text = re.sub(r"^Measured: (?:.+\n)+", lambda _: textwrap.fill(said, 100) + "\n", text, count=1, flags=re.M)
    return re.sub(r"^Counted on .*:\n", f"Counted on {day}:\n", text, count=1, flags=re.M)


def medians(row, programs):
    """Returns the number of a row for each program: of one run; for times, which vary, the median of nine runs in turn."""
    runs = [[row.measure(it) for it in programs] for _ in range(9 if row.unit in TIMES else 1)]
    return [statistics.median(it) for it in zip(*runs)]


def measured_rows(words, program, plain, is_alone):
    """Returns the numbers of both programs, by the names of rows."""
    found, found_plain = {}, {}
    for row in ROWS:
        is_compared = row.page == COMPARED
        if words and row.name not in words or is_compared and not plain and (row.unit in TIMES or not is_alone):
            continue
        found[row.name], *other = medians(row, [program, plain] if plain and is_compared else [program])
        if other:
            found_plain[row.name] = other[0]
        print(f"{row.name:<20} {rounded(found[row.name])} {row.unit}", flush=True)
    return found, found_plain


def main(words):
    texts = {}
    for path in (COMPARED, WHOLE):
        with open(path, encoding="utf-8") as file:
            texts[path] = file.read()
    if words == ["--list"]:
        for row in ROWS:
            print(f"{row.name:<20} {', '.join(it for it in row.labels if it)}")
        return 0
    if words == ["--check"]:
        wrong = [path for path, text in texts.items() if with_table(path, text, {}, {}) != text or HEADS[path] not in text]
        for path in wrong:
            print(f"{os.path.relpath(path, TOP)}: expected the rows of `bench/runs page`, got others")
        return 1 if wrong else 0
    is_alone = "--program" in words
    words = [it for it in words if it != "--program"]
    unknown = [it for it in words if it not in {row.name for row in ROWS}]
    if unknown:
        print(f"page: expected names of rows (--list), got {' '.join(unknown)}")
        return 2
    program, plain = whole(), os.environ.get("PLAIN") and Program(os.path.realpath(os.environ["PLAIN"]))
    found = measured_rows(words, program, plain, is_alone)
    for path, text in texts.items():
        text = with_table(path, text, *found)
        with open(path, "w", encoding="utf-8") as file:
            file.write(text if words else with_day(text, plain, is_alone))
    return 0


if __name__ == "__main__":
    sys.exit(main(sys.argv[1:]))
