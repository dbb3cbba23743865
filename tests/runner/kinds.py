"""Which sources match on kinds of requests that change something. What such a request may change is said once, by
`what_may_change` of broker_node, and all that goes by it asks there. A source that tells such kinds apart by itself would have to be
found by whoever adds one.

The kinds are those that `what_may_change` names. A source may name one of them, as its reader does; more of them only in the
functions of FUNCTIONS, each with why.
"""
import re

from runner.source_bytes import sources

TABLE = "broker_node/src/changes.rt", "what_may_change"
FUNCTIONS = {
    TABLE: "the table itself",
    ("broker_node/src/changes.rt", "is_dear"): "which requests may take long, also of those that only read",
    ("broker_node/src/changes.rt", "only_grows"): "which only append or clean, so that it is told who waits on",
    ("broker_node/src/handling.rt", "reply_to"): "the dispatch: each kind goes to the function that answers it",
    ("request_frames/src/api.rt", "listed"): "the table of keys: those that a client is told of",
    ("request_frames/src/api.rt", "key"): "the table of keys",
    ("request_frames/src/api.rt", "version"): "the table of keys: the versions",
    ("request_frames/src/api.rt", "of_key"): "the table of keys, looked up",
    ("request_frames/src/api.rt", "in_other_version"): "the table of keys: those that have two versions",
    ("request_frames/src/parsing.rt", "body_at"): "the readers: each kind goes to the one that reads its fields",
    ("member_frames/src/told.rt", "told_ranges"): "the requests that a client is told of where groups have members",
}
ENUMS = ["RequestBody", "Api"]  # those that have a constructor for each kind


def without_comments(source):
    return re.sub(r"//[^\n]*", "", source)


def names_of(source):
    """What a source calls an enum of kinds: its own name, other names, and `Self` in what is implemented for it."""
    names = set(ENUMS)
    for it in ENUMS:
        names.update(re.findall(rf"\b{it} as (\w+)", source))
        names.update(re.findall(rf"\btype (\w+)[^=;]*=\s*(?:\w+::)*{it}\b", source))
        names.update("Self" for _ in re.findall(rf"^impl\b[^{{;]*\b{it}\b[^{{;]*\{{", source, re.M))
    return "|".join(sorted(names))


def constructors_in(source, text):
    """All constructors of such an enum that a part of a source names, `*` where it has them all by their own names."""
    names, found = names_of(source), set()
    for listed, single in re.findall(rf"\b(?:{names})::(?:\{{([^}}]*)\}}|(\w+|\*))", text):
        found.update(re.findall(r"\w+|\*", listed or single))
    return found


def function_in(source, name):
    """The text of a function, from its name to the brace in the column in which it begins; none where it isn't there."""
    found = re.search(rf"^( *)(?:pub(?:\([^)]*\))? )?fn {name}\b.*?^\1\}}$", source, re.M | re.S)
    return found and found[0]


def faults_of_source(path, source, kinds):
    """What a source names of these kinds that it mustn't, and which of its functions FUNCTIONS lists for nothing."""
    faults, rest = [], source
    for it in (name for at, name in FUNCTIONS if at == path):
        text = function_in(source, it)
        if text is None or len(constructors_in(source, text) & kinds) < 2:
            faults.append(f"{path}: {it} names no two kinds of requests that change something, and is listed")
        else:
            rest = rest.replace(text, "")
    named = constructors_in(source, rest) & (kinds | {"*"})
    if len(named) > 1 or "*" in named:
        faults.append(f"{path}: it names {', '.join(sorted(named))}; what a request may change {TABLE[1]} says")
    return faults


def faults():
    """Where sources tell kinds of requests apart that change something."""
    read = {path: without_comments(source) for path, source in sources()}
    table = function_in(read.get(TABLE[0], ""), TABLE[1])
    if table is None:
        return [f"{TABLE[0]}: {TABLE[1]} isn't there"]
    kinds = constructors_in(read[TABLE[0]], table)
    missing = [f"{path}: it isn't there, and {name} is listed" for path, name in FUNCTIONS if path not in read]
    return missing + [it for path, source in read.items() for it in faults_of_source(path, source, kinds)]
