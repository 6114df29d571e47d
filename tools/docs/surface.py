#!/usr/bin/env python3
"""Checks that the fifteen crates for other programs export each promised call and type under its own name.

    tools/docs/surface.py

Each name of SURFACE must be declared in the root of its crate, or passed on there by `pub use`, which the gate compiles; and so on down to the
declaring crate, with a doc comment. `Type::method` is a public method of such a type. Prints what is missing; its status is 1 if anything is. tools/docs/made_docs.py makes docs/surface.md of the same
list. Standard library alone.
"""
import argparse
import os
import re
import sys

HERE = os.path.dirname(os.path.abspath(__file__))
sys.path.insert(0, HERE)
import made_docs  # noqa: E402

SURFACE = {
    "extensions": ["Decimal", "IpNet"],
    "values": ["TypeName", "EntityUid", "Name", "Record", "Set", "Value", "Request"],
    "policy_grammar": ["tokens", "parse_policy", "parse_policies", "parse_uid", "Policy", "Scope", "Expr", "Pattern", "ReadFault"],
    "schema": ["read_schema", "Schema", "CedarType", "Environment", "EntityDecl", "SchemaFault"],
    "entities": ["read_entity", "read_context", "read_request", "canonical_text", "Entity", "EntityFault"],
    "ancestor_closure": ["Ancestry", "Hierarchy", "Searched", "Closed"],
    "evaluator": ["evaluate", "Lookup", "EvalFault"],
    "validator": ["check", "Verdict", "TypeFault"],
    "authoriser": ["decide", "Answer", "Decision"],
    "scope_index": ["ScopeIndex"],
    "stamped_store": ["Stamp", "Entry", "Join", "Stamped", "Short", "StampedStore"],
    "sync_messages": [
        "write_state", "write_delta", "write_summary", "read_message", "read_summary", "Update", "Summary", "MessageFault",
    ],
    "site": [
        "Site", "Site::run", "Put", "Taken", "SiteFault", "Input", "Reply", "simulate", "Event", "World", "is_site_name",
    ],
    "http_service": [
        "serve", "StreamFault", "serve_logged", "LoggedFault", "fetch", "FetchFault", "Ask", "Source", "Sink", "Counted", "Fed", "Kept",
        "answer_line", "error_line",
    ],
    "program": [
        "line_of", "Line", "LineFault", "SiteName", "CheckOptions", "DecideOptions", "LoadOptions", "ServeOptions", "PullOptions",
        "ExchangeOptions", "MergeOptions", "DrillOptions", "ExplainOptions", "decide_texts", "check_texts", "decide_under", "Refusal",
        "pull_over", "Pulled", "PullFault", "NetworkFault", "merge_texts", "drill_text", "run",
    ],
}


def roots():
    """Returns the root of each crate that is a library, as a text."""
    folder = f"{made_docs.TOP}/crates"
    return {it: made_docs.text_of(f"crates/{it}/src/lib.rt") for it in os.listdir(folder) if os.path.isfile(f"{folder}/{it}/src/lib.rt")}


def paths_of(root):
    """Returns where a root takes each of its public names from: a map from the name to the path's words."""
    found = {}
    for one in re.finditer(r"(?m)^pub use ((?:\w+::)+)(?:\{([^}]*)\}|(\w+));", root):
        for name in re.findall(r"\w+", one[2] or one[3]):
            found[name] = [*one[1].rstrip(":").split("::"), name]
    return found


class Surface:
    """Where the crates' names are declared."""

    def __init__(self):
        self.roots = roots()
        self.paths = {crate: paths_of(root) for crate, root in self.roots.items()}
        self.files = {}

    def items(self, crate, module):
        """Returns the public items of a file, with the methods of its types."""
        path = f"crates/{crate}/src/{module}.rt"
        if path not in self.files:
            self.files[path] = made_docs.items_of(path) if os.path.isfile(f"{made_docs.TOP}/{path}") else ([], [])
        return self.files[path]

    def declared(self, crate, name):
        """Returns the item that a crate exports by this name (`Type::method`: of a type), and the crate that declares it, or None."""
        kind, _, method = name.partition("::")
        if method:
            home = self.declared(crate, kind)
            return home and self.method(home[1], kind, method)
        words = self.paths[crate].get(name, ["lib", name])
        if words[0] not in self.roots or os.path.isfile(f"{made_docs.TOP}/crates/{crate}/src/{words[0]}.rt"):
            return self.item(crate, "/".join(words[:-1]), name)
        return self.declared(words[0], name) if len(words) == 2 else self.item(words[0], "/".join(words[1:-1]), name)

    def method(self, crate, kind, name):
        """Returns the public method of a type, in whichever module of its crate it is, and the crate, or None."""
        modules = [it[:-3] for it in sorted(os.listdir(f"{made_docs.TOP}/crates/{crate}/src")) if it.endswith(".rt")]
        found = [it for module in modules for of, it in self.items(crate, module)[1] if (of, it.name) == (kind, name)]
        return (found[0], crate) if found else None

    def item(self, crate, module, name):
        item = next((it for it in self.items(crate, module)[0] if it.name == name), None)
        return item and (item, crate)


def rows():
    """Yields the names of SURFACE, each with its crate and its item, or none."""
    surface = Surface()
    for crate, names in SURFACE.items():
        for name in names:
            found = surface.declared(crate, name)
            yield crate, name, found and found[0]


PAGE = """# The surface

Made by `tools/docs/made_docs.py` from the doc comments. Fifteen crates for programs that build on
Weirbowl, lowest first. `tools/docs/surface.py` fails if a name is missing; `made_docs.py --calls
CRATE` prints each type with its methods. A call that allocates takes `alloc: Global` first, after
`self`, and may return `NoMemory`. An error implements `Error`, and its `code` is a number of
docs/codes.md.
"""


def page():
    """Returns the text of docs/surface.md."""
    lines, last = [PAGE], None
    for crate, name, item in rows():
        if crate != last:
            lines += [*([""] if last else []), f"## `{crate}`: {made_docs.purpose_of(crate)}", ""]
            last = crate
        says = made_docs.clause(item.says, 80) if item else "missing"
        end = "" if says.endswith("?") else "."
        lines += made_docs.wrapped(f"- `{name}`: {says}{end}")
    return "\n".join(lines) + "\n"


def missing():
    for crate, name, item in rows():
        if item is None:
            yield f"expected {name} of {crate}, got no such export"
        elif not item.says:
            yield f"expected a doc comment of {crate}::{name}, got none"


def main():
    argparse.ArgumentParser(description=__doc__, formatter_class=argparse.RawDescriptionHelpFormatter).parse_args()
    found = list(missing())
    print("\n".join(found) or f"{sum(map(len, SURFACE.values()))} names of {len(SURFACE)} crates are exported")
    return 1 if found else 0


if __name__ == "__main__":
    sys.exit(main())
