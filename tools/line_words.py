"""What is said of faults in script lines, of a description's weight and of its layout."""
import difflib
import itertools
import re

from fault_places import Description, Fault, path_of
from script_lines import FORMS, KINDS, OPERANDS, fits, form_of, letters_of

COLUMN = re.compile(r"(.*):(\d+)")
MOST_WEIGHT = 400_000
MOST_PERMUTED = 5
NO_TIME = "time passes only while threads wait: a call with K_TICKS(N) waits at most N ticks"
NOT_MODELLED = {
    "k_sleep": NO_TIME, "k_msleep": NO_TIME, "k_usleep": NO_TIME, "k_busy_wait": NO_TIME, "k_yield": "any ready thread may run at any time",
    "k_object_free": "an object goes when its last permission does: k_object_release", "k_free": "memory isn't allocated by threads",
    "k_malloc": "memory isn't allocated by threads",
}  # fmt: skip


def line_of(description: Description, rest: list) -> tuple:
    """The path, the column and the text of the line that a fault is in."""
    found = COLUMN.fullmatch(rest[-1])
    path, column = path_of(found[1] if found else rest[-1]), int(found[2]) if found else 1
    return path, column, description.get(path, "")


def told(description: Description, words: str, path: tuple, lines: list, span=None) -> Fault:
    """A fault in a line, whose number counts from 1 in what is said."""
    name = description.get((*path[:2], "name"), "")
    title = f"{words}: line {path[3] + 1} of the script {name}"
    return Fault(title, *(span or description.spot(path) or (None, None)), lines)


def word_at(line: str, column: int) -> str:
    """The word that begins at a column of a line, in bytes."""
    return line.encode()[column - 1 :].decode(errors="replace").split(" ")[0]


def line_fault(description: Description, words: str, rest: list) -> Fault:
    kind = rest[0]
    path, column, line = line_of(description, rest)
    word, first = word_at(line, column), (line.split() or [""])[0]
    span = description.inside(path, column, len(word))
    if kind == "UnknownWord":
        lines = [NOT_MODELLED.get(word, "expected: an instruction, as docs/FORMATS.md lists them"), *near(word, list(FORMS))]
        return told(description, words, path, lines, span)
    form = f"form: {form_of(first)}"
    operands = line.split()[1:]
    letters = letters_of(first, len(operands))
    if kind == "Missing":
        missing = letters_of(first, 0)[len(operands) :]
        return told(description, words, path, [f"expected: {'; '.join(OPERANDS[one].what for one in missing[:1])}", form], span)
    if kind == "Extra":
        return told(description, words, path, ["expected: the end of the line", form], span)
    number = len(line.encode()[: column - 1].decode(errors="replace").split()) - 1
    letter = letters[number]
    lines = [f"expected: {OPERANDS[letter].what}"]
    lines += range_words(letter, word) if kind == "Range" else word_words(description, letter, word)
    return told(description, words, path, [*lines, form, *exchanged(first, letters, operands)], span)


def near(word: str, words: list) -> list:
    found = difflib.get_close_matches(word, words, n=1, cutoff=0.6 if len(word) < 6 else 0.72)
    return [f"perhaps: {found[0]}"] if found else []


def range_words(letter: str, word: str) -> list:
    if "+" in word:
        return ["a place is at most 65536 bytes behind its name"]
    return {
        "N": ["it is from 1 to 1000"], "I": ["it is from -128 to 127"], "n": ["it is 1, 2 or 4"], "W": ["it is from 1 to 1000000 ticks"],
    }.get(letter, ["it is at most 4294967295"])  # fmt: skip


def word_words(description: Description, letter: str, word: str) -> list:
    """What a word of the wrong form may have meant."""
    if re.fullmatch("0[xX][0-9a-fA-F]+", word) and word != word.lower():
        return [f"hexadecimal digits are lower case; perhaps: {word.lower()}"]
    if letter == "W":
        unit = re.fullmatch(r"K_[A-Z]+\(([0-9]{1,7})\)", word)
        return [f"time is counted in ticks; perhaps: K_TICKS({unit[1]})"] if unit else near(word, ["K_NO_WAIT", "K_FOREVER", "K_TICKS"])
    if letter == "K":
        return near({"queue": "msgq", "semaphore": "sem"}.get(word, word), KINDS)
    if letter not in "VOTSA":
        return [f"it stands without @: {word[1:]}"] if word.startswith("@") and letter in "DCP" else []
    name = word.split("+")[0]
    if name in [*description.named("object"), *description.named("partition"), *description.variables(), *description.named("futex"), "rodata"]:
        what = "an object" if name in description.named("object") else "memory"
        return [f"{what} is named with @: @{word}"]
    return ["numbers have no sign"] if re.fullmatch("-[0-9]+", word) else []


def exchanged(first: str, letters: list, operands: list) -> list:
    """The line with its operands in another order, where exactly one of the orders has the form."""
    if len(operands) != len(letters) or len(operands) > MOST_PERMUTED:
        return []
    orders = {order for order in itertools.permutations(operands) if all(map(fits, letters, order))}
    is_one = len(orders) == 1 and tuple(operands) not in orders
    return [f"perhaps: {' '.join([first, *orders.pop()])}"] if is_one else []


def line_name(description: Description, words: str, rest: list) -> Fault:
    path, column, line = line_of(description, rest)
    word = word_at(line, column)
    number = len(line.encode()[: column - 1].decode(errors="replace").split()) - 1
    operands = line.split()[1:]
    letter = letters_of(line.split()[0], len(operands))[number]
    names = {
        "D": description.named("domain"), "C": description.named("script"), "P": description.named("partition"),
    }.get(letter)  # fmt: skip
    places = [*description.named("object"), *description.named("partition"), *description.variables(), *description.named("futex")]
    if names is None:
        names = [*places, *(["rodata"] if description.get(("rodata",)) else [])]
        lines = ["expected behind @: an object, a partition, a variable, a futex, or rodata where the description gives some"]
        lines += [f"perhaps: @{one.removeprefix('perhaps: ')}" for one in near(word[1:].split("+")[0], names)]
    else:
        what = {"D": "domain", "C": "script", "P": "partition"}[letter]
        lines = [f"expected: the name of a {what}" + (f": {', '.join(names)}" if names else "; there is none"), *near(word, names)]
    return told(description, words, path, lines, description.inside(path, column, len(word)))


def block(description: Description, words: str, rest: list) -> Fault:
    path = path_of(rest[-1])
    lines = description.get(path[:-1], [])
    firsts = [(line.split() or [""])[0] for line in lines]
    here, behind = firsts[path[3]], firsts[path[3] + 1 :]
    before = firsts[: path[3]]
    open_ones = before.count("repeat") - before.count("end")
    if here == "end":
        why = "this end has no repeat before it" if open_ones <= 0 else "no line stands between this end and its repeat"
    elif open_ones > 0:
        why = "a repeat doesn't stand inside another one"
    elif "end" not in behind:
        why = "this repeat has no end"
    else:
        why = "no line stands between this repeat and its end"
    return told(description, words, path, [why, "form: repeat N, lines, end"])


def script_order(description: Description, words: str, rest: list) -> Fault:
    path = path_of(rest[-1])
    named = [word for word in description.get(path, "").split()[1:] if word in description.named("script")]
    mine = description.get((*path[:2], "name"), "")
    lines = ["a line names only scripts that stand behind its own, so that no script runs itself"]
    lines += [f"perhaps: move {named[0]} behind {mine}"] if named and named[0] != mine else []
    return told(description, words, path, lines)


COSTS = {"repeat": 0, "end": 0, "set": 4, "add": 4, "load": 12, "store": 12, "exec": 12, "k_object_alloc": 240} | dict.fromkeys(
    ["k_timer_start", "k_timer_stop", "k_timer_status_get", "k_timer_status_sync", "k_thread_abort", "k_thread_join", "k_thread_suspend"]
    + ["k_thread_resume", "k_futex_wait", "k_futex_wake"],
    80,
)
OTHER_COST, SCRIPT_COST = 40, 240


def weights(description: Description) -> dict:
    """What each script weighs. A line names only scripts that stand behind its own."""
    found = {}
    for entry in reversed(description.entries("script")):
        total, times = SCRIPT_COST, 1
        for line in entry["lines"]:
            first, *operands = line.split()
            times = int(operands[0], 0) if first == "repeat" else 1 if first == "end" else times
            cost = COSTS.get(first, OTHER_COST)
            if first == "k_thread_create":
                cost = SCRIPT_COST + found[operands[3]]
            elif first == "k_thread_user_mode_enter":
                cost = OTHER_COST + found[operands[0]]
            total += times * cost
        found[entry["name"]] = total
    return found


def weight(description: Description, words: str, rest: list) -> Fault:
    found = weights(description)
    boots = [entry["script"] for entry in description.entries("boot")]
    total = sum(found[script] for script in boots)
    lines = [f"a description weighs at most {MOST_WEIGHT}; this one weighs {total}"]
    for name, own in sorted(found.items(), key=lambda pair: -pair[1]):
        times = boots.count(name)
        lines.append(f"the script {name} weighs {own}" + (f", and {times} boot {'entry runs' if times == 1 else 'entries run'} it" if times else ""))
    heaviest = max(boots, key=lambda name: found[name])
    place = next(number for number, entry in enumerate(description.entries("script")) if entry["name"] == heaviest)
    return Fault(words, *(description.spot(("script", place, "name")) or (None, None)), lines)


def layout(description: Description, words: str, rest: list) -> Fault:
    what, need, have = rest
    is_v7 = description.get(("mpu",)) == "pmsav7"
    rounding = "each is rounded up to a power of two, of 32 at least" if is_v7 else "each is rounded up to a multiple of 32"
    return Fault(words, None, None, [f"the {what} need {need} bytes together, and have {have}", rounding])


TOLD = {"Line": line_fault, "LineName": line_name, "Block": block, "ScriptOrder": script_order, "Weight": weight, "Layout": layout}
