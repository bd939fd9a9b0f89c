"""What is said of each kind of fault in a description: what was expected, and what it may have meant."""
import difflib
import re

import line_words
from fault_places import Description, Fault, path_of

AT = re.compile(r"(.*) \(at (?:line (\d+), column (\d+)|end of document)\)", re.S)
BARE_WORD = re.compile(r"=\s*([A-Za-z_]\w*)\s*(?:[,}\]#]|$)")
LARGE_NUMBER = re.compile(r"=\s*(\d+)\s*([KkMm])[iB]*\b")

NUMBER, TEXT, TRUTH = "a whole number, as 8", "a text in quotes", "true or false"
BYTES = 'the digits of bytes in quotes, as "2a00": lower-case hexadecimal ones, two a byte, without 0x'
NAMES, TABLES = 'a list of names, as ["p"]', "an array of tables"
# The keys of each place, each with its type.
KEYS = {
    "": {"version": NUMBER, "mpu": TEXT, "regions": NUMBER, "oops": TEXT, "rodata": BYTES}
    | dict.fromkeys(["pool", "partition", "domain", "object", "boot", "script", "futex"], TABLES),
    "pool": {"name": TEXT, "size": NUMBER},
    "partition": {"name": TEXT, "size": NUMBER, "attr": TEXT, "data": BYTES, "vars": "a list of tables, the variables"},
    "vars": {"name": TEXT, "size": NUMBER, "align": NUMBER, "data": BYTES},
    "domain": {"name": TEXT, "partitions": NAMES},
    "object": {"name": TEXT, "kind": TEXT, "public": TRUTH, "size": NUMBER, "count": NUMBER, "limit": NUMBER, "init": TRUTH}
    | dict.fromkeys(["msg_size", "max_msgs", "entries"], NUMBER),
    "boot": dict.fromkeys(["thread", "stack", "script", "domain", "mode", "pool"], TEXT) | {"priority": NUMBER, "grants": NAMES},
    "script": {"name": TEXT, "lines": 'a list of script lines, as ["set r0 1"]'},
    "futex": {"name": TEXT, "partition": TEXT, "offset": NUMBER},
}  # fmt: skip
KEYS_OF_KIND = {
    "thread": [], "thread_stack": ["size"], "sem": ["count", "limit"], "mutex": ["init"], "msgq": ["msg_size", "max_msgs"],
    "stack": ["entries"], "pipe": ["size"], "timer": [],
}  # fmt: skip
KINDS = list(KEYS_OF_KIND)
WORDS = {
    "mpu": ["pmsav7", "pmsav8"], "oops": ["abort", "halt"], "mode": ["user", "supervisor"], "kind": KINDS,
    "attr": ["P_RW_U_RW", "P_RW_U_RO", "P_RW_U_NA", "P_RO_U_RO", "P_RO_U_NA", "P_RX_U_RX"],
}  # fmt: skip
OTHER_WORDS = {"queue": "msgq", "message_queue": "msgq", "fifo": "msgq", "semaphore": "sem", "supervisor_mode": "supervisor", "user_mode": "user"}
GOES_WITH = {"count": "limit", "limit": "count", "msg_size": "max_msgs", "max_msgs": "msg_size"}


def near(word, words: list) -> list:
    """A line with the word that may have been meant, where one is near."""
    other = OTHER_WORDS.get(word) if isinstance(word, str) else None
    found = [other] if other in words else difflib.get_close_matches(str(word), words, n=1, cutoff=0.6)
    return [f"perhaps: {found[0]}"] if found else []


def place_of(path: tuple) -> str:
    """The place whose keys a path has: a section, the variables of a partition, or the top."""
    return "vars" if "vars" in path[:-1] else path[0] if len(path) > 1 else ""


def at(description: Description, words: str, path: tuple, lines: list, span=None) -> Fault:
    """A fault at a path."""
    span = span or description.spot(path)
    return Fault(words, *(span or (None, None)), lines)


def not_toml(text: str, said: str) -> Fault:
    """A text that is no TOML, by what Python's reader says."""
    found = AT.fullmatch(said)
    if not found:
        return Fault("NotToml", None, None, [said])
    what, line, column = found[1], found[2], found[3]
    lines = text.split("\n")
    if line is None:
        return Fault("NotToml", len(text.rstrip("\n")), len(text), [f"{what}: the text ends here"])
    start = sum(len(one) + 1 for one in lines[: int(line) - 1]) + int(column) - 1
    here, hints = lines[int(line) - 1], []
    if header := re.match(r"\s*\[(pool|partition|domain|object|boot|script|futex)\]", here):
        hints = [f"the entries of a section begin with two brackets; perhaps: [[{header[1]}]]"]
    elif large := LARGE_NUMBER.search(here):
        size = int(large[1]) * (1024 if large[2] in "Kk" else 1024 * 1024)
        hints = [f"a number has digits alone; perhaps: {size}"]
    elif (bare := BARE_WORD.search(here)) and bare[1] not in ("true", "false", "inf", "nan"):
        hints = [f'a word stands in quotes; perhaps: "{bare[1]}"']
    return Fault("NotToml", start, start + 1, [what, *hints])


def version(description: Description, words: str, rest: list) -> Fault:
    return at(description, words, ("version",), ["expected: version = 1 or version = 2, at the top"])


def missing_key(description: Description, words: str, rest: list) -> Fault:
    path = path_of(rest[-1])
    key, entry = path[-1], description.get(path[:-1], {})
    known = KEYS.get(place_of(path), {})
    lines = [f"expected here: the key {key}, {known.get(key, 'which has to be there')}"]
    if GOES_WITH.get(key) in entry:
        lines.append(f"{GOES_WITH[key]} and {key} go together: both or neither")
    strangers = [other for other in entry if other not in known]
    close = difflib.get_close_matches(key, strangers, n=1, cutoff=0.6)
    return at(description, words, path, lines + [f"perhaps it is written {close[0]}" for close in [close] if close], description.nearest(path))


def wrong_type(description: Description, words: str, rest: list) -> Fault:
    path = path_of(rest[-1])
    value = description.get(path)
    key = next((step for step in reversed(path) if isinstance(step, str)), "")
    if path == (key,) and KEYS[""].get(key) == TABLES:
        lines = [f"expected: {TABLES}, whose entries begin with [[{key}]]"]
        return at(description, words, path, lines + ([f"perhaps: [[{key}]]"] if isinstance(value, dict) else []))
    if isinstance(path[-1], int):
        what = "a text in quotes" if len(path) > 2 else "a table"
    else:
        what = KEYS.get(place_of(path), {}).get(key, "another type")
    lines = [f"expected: {what}"]
    if what == BYTES and isinstance(value, str):
        lines += digits_words(value)
    elif what == NUMBER and isinstance(value, str):
        lines.append("a number stands without quotes")
    return at(description, words, path, lines)


def digits_words(value: str) -> list:
    """What is wrong about the digits of bytes."""
    digits = value.lower().removeprefix("0x").replace(" ", "")
    lines = ["hexadecimal digits are lower case"] if value != value.lower() else []
    if not re.fullmatch("[0-9a-f]*", digits):
        return [*lines, "it has signs that are no hexadecimal digits"]
    if len(digits) % 2:
        return [*lines, "it has an odd number of digits"]
    return [*lines, f'perhaps: "{digits}"']


def unknown_key(description: Description, words: str, rest: list) -> Fault:
    path = path_of(rest[-1])
    place, entry = place_of(path), description.get(path[:-1], {})
    known = list(KEYS.get(place, {}))
    lines = []
    if place == "object" and entry.get("kind") in KEYS_OF_KIND:
        known = ["name", "kind", "public", *KEYS_OF_KIND[entry["kind"]]]
        lines = [f"expected in an object of kind {entry['kind']}: {', '.join(known)}"]
    elif place == "partition" and description.get(("version",)) == 2:
        known = ["name", "attr", "vars"]
    elif place == "partition":
        known.remove("vars")
    lines = lines or [f"expected {'in an entry of ' + place if place else 'at the top'}: {', '.join(known)}"]
    if place == "partition" and path[-1] in ("size", "data", "vars"):
        lines.append("a partition has a size in version 1, and vars in version 2")
    return at(description, words, path, lines + near(path[-1], known), description.key_spot(path))


def bad_name(description: Description, words: str, rest: list) -> Fault:
    path = path_of(rest[-1])
    key, value = path[-1], description.get(path)
    if key in WORDS:
        return at(description, words, path, [f"expected: {', '.join(WORDS[key])}", *near(value, WORDS[key])])
    if key == "align":
        return at(description, words, path, ["expected: 1, 2, 4, 8, 16 or 32"])
    lines = ["expected: a name of 1 to 24 letters, digits or _ that begins with a letter, and isn't rodata"]
    return at(description, words, path, lines)


def duplicate(description: Description, words: str, rest: list) -> Fault:
    path = path_of(rest[-1])
    value, mine = description.get(path), description.spot(path)
    if path[0] == "futex" and path[-1] == "offset":
        return one_address(description, words, path)
    same = [
        span
        for other, span in description.places.values.items()
        if mine and span.start < mine.start and description.get(other) == value and is_same_use(path, other)
    ]
    what = "a name stands once in a whole description" if path[-1] == "name" else "it may stand here once"
    lines = [f"expected: another one: {what}"]
    if same:
        lines.append(f"{value} stands in line {description.text[: same[0].start].count(chr(10)) + 1} already")
    return at(description, words, path, lines)


def one_address(description: Description, words: str, path: tuple) -> Fault:
    """A futex that lies where one before it does."""
    entries = description.entries("futex")
    mine = entries[path[1]]
    name = next(entry["name"] for entry in entries if (entry["partition"], entry["offset"]) == (mine["partition"], mine["offset"]))
    return at(description, words, path, ["expected: another offset: no two futexes have one address", f"{name} lies there already"])


def is_same_use(path: tuple, other: tuple) -> bool:
    """Whether two keys may not have the same value: two names, the same key of two boot entries, or two items of one list."""
    if path[-1] == "name" or path[0] == "boot":
        return path[-1] == other[-1] and (path[-1] == "name" or path[0] == other[0])
    return path[:-1] == other[:-1]


def unknown_name(description: Description, words: str, rest: list) -> Fault:
    path = path_of(rest[-1])
    key = next(step for step in reversed(path) if isinstance(step, str))
    value = description.get(path)
    section, kind = {"thread": ("object", "thread"), "stack": ("object", "thread_stack"), "grants": ("object", ""),
                     "partitions": ("partition", "")}.get(key, (key, ""))  # fmt: skip
    what = {"thread": "a thread object", "thread_stack": "a thread stack"}.get(kind, f"an entry of {section}")
    names = description.named(section, kind)
    if key == "domain" and value in names:
        lines = [f"the domain {value} is known, but it isn't initialised: it has no key partitions"]
        return at(description, words, path, [*lines, "expected: a domain with a key partitions, which may be []"])
    lines = [f"expected: the name of {what}" + (f": {', '.join(names)}" if names else "; there is none")]
    return at(description, words, path, lines + used_as(description, value) + near(value, names))


def used_as(description: Description, name) -> list:
    """What a name stands for, where it is that of something else."""
    for section in ("pool", "partition", "domain", "object", "script", "futex"):
        for entry in description.entries(section):
            if entry.get("name") == name:
                return [f"{name} is a {entry.get('kind', section) if section == 'object' else section}"]
    return []


def limit(description: Description, words: str, rest: list) -> Fault:
    counted, number, place = rest
    path, bound = path_of(place), int(number)
    value = description.get(path)
    regions = description.get(("regions",))
    if counted == "partitions":
        held = f"regions - 3 = {bound}" if regions - 3 == bound else str(bound)
        return at(description, words, path, [f"a domain holds at most {held} partitions"])
    if len(path) == 2 and counted == path[0]:
        return at(description, words, path, [f"a description has at most {bound} entries of {counted}"])
    if counted == "threads":
        return at(description, words, path, [f"at most {bound} objects are threads; further ones are created by k_object_alloc"])
    if counted in ("lines", "vars"):
        return at(description, words, path, [f"expected: {'at least' if bound == 1 else 'at most'} {bound} of {counted}; there are {len(value)}"])
    if counted in ("data", "rodata"):
        return at(description, words, path, [f"expected: at most {bound} bytes, two digits each; there are {len(value) // 2}"])
    if path[-1] == "vars":
        return at(description, words, path, [f"the variables of a partition end behind at most {bound} bytes"])
    if counted == "offset" and value == bound:
        return at(description, words, path, ["a futex has four bytes, and its partition has fewer"])
    end = "at least" if isinstance(value, int) and value < bound else "at most"
    why = " (its limit)" if counted == "count" and end == "at most" and bound else ""
    return at(description, words, path, [f"expected: {counted} of {end} {bound}{why}; it is {value}"])


def no_trace() -> Fault:
    """What `audit` is given without a line =====."""
    return Fault("NoTrace", None, None, ["expected: a description, a line that is exactly =====, and a trace"])


TOLD = {
    "Version": version, "MissingKey": missing_key, "WrongType": wrong_type, "UnknownKey": unknown_key, "BadName": bad_name,
    "Duplicate": duplicate, "UnknownName": unknown_name, "Limit": limit, **line_words.TOLD,
}  # fmt: skip


def fault(description: Description, kind: str, rest: list, words: str) -> Fault:
    """A fault of a kind, with the words that the program has behind it."""
    return TOLD[kind](description, words, rest) if kind in TOLD else Fault(words, None, None, [])
