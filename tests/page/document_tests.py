"""Tests of the schema, the manual page and the completions."""
import json
import os
import pty
import re
import select
import subprocess
import sys
import time
import tomllib

from judging import EXAMPLES, TOP, NotRun, fault_of, holds, needs, same

SCHEMA = TOP / "schema" / "zumode.schema.json"
POINTER = "#:schema ../schema/zumode.schema.json"
FORM_FAULTS = {"MissingKey", "WrongType", "UnknownKey", "BadName"}
MOST_PICTURE_BYTES = 200_000
SECONDS = 20
SHOW_LINE = b"""bind -x '"\\C-t": printf "[%s%s]" "[$READLINE_LINE" "]"'"""
COMMANDS = ["audit", "gen", "layout", "run", "sim", "summary", "upgrade"]
QUESTIONS = ["ends", "find", "next"]


def validator():
    try:
        import jsonschema
    except ImportError:
        raise NotRun("the Python module jsonschema isn't there; tests/pages --install installs it") from None
    schema = json.loads(SCHEMA.read_text())
    jsonschema.Draft202012Validator.check_schema(schema)
    return jsonschema.Draft202012Validator(schema)


def accepted_examples_are_valid() -> None:
    schema = validator()
    for source in sorted(EXAMPLES.glob("*.toml")):
        if fault_of(source):
            continue
        faults = [
            f"{list(fault.absolute_path)}: {fault.message}"
            for fault in schema.iter_errors(tomllib.loads(source.read_text()))
        ]
        same(f"faults of {source.name} by the schema", faults, [])


def refused_examples_are_not() -> None:
    schema = validator()
    seen = set()
    for source in sorted(EXAMPLES.glob("*.toml")):
        if fault_of(source) in FORM_FAULTS:
            seen.add(fault_of(source))
            holds(f"{source.name} is valid by the schema", not schema.is_valid(tomllib.loads(source.read_text())))
    same("kinds of faults among the examples", seen, FORM_FAULTS)


def faults_by_schema(**changed) -> list:
    """What the schema says of a small description with these keys in the place of its own."""
    plain = {"version": 1, "mpu": "pmsav7", "regions": 8, "oops": "abort"}
    return [fault.message for fault in validator().iter_errors({**plain, **changed})]


def schema_marks_lines() -> None:
    def marked(line: str) -> bool:
        return faults_by_schema(script=[{"name": "m", "lines": [line]}]) != []

    right = ["repeat 5", " end ", "load r0 @p+4 1", "k_mem_domain_init d", "k_mem_domain_init d p 0x20000000/64/P_RX_U_RX",
             "k_thread_create @t @s 64 c -1 K_USER+K_INHERIT_PERMS", "k_sem_take r7  K_FOREVER", "k_sem_take r7 K_TICKS(5)",
             "k_timer_start @tm 3", "k_timer_status_sync @tm r0"]  # fmt: skip
    wrong = ["", "repat 5", "repeat", "repeat r0", "load @p r0 4", "load r0 @p 3", "store @p 4 0xAB", "k_sem_take s K_FOREVER", "k_sem_give @s @t",
             "k_mem_domain_init d p p p p p", "set\tr0 1", "k_object_alloc queue r0", "k_msgq_get @q @p K_MSEC(1)", "k_sem_take r7 K_TICKS()",
             "k_sem_take r7 K_TICKS(00000001)", "k_timer_start @tm", "k_timer_stop @tm 1", "k_object_alloc timer r0"]  # fmt: skip
    same("lines that are marked without a fault", [line for line in right if marked(line)], [])
    same("lines with a fault that aren't marked", [line for line in wrong if not marked(line)], [])


def schema_says_what_is_wrong_of_an_object() -> None:
    cases = [
        ({"name": "x", "kind": "queue"}, "'queue' is not one of ['thread', 'thread_stack', 'sem', 'mutex', 'msgq', 'stack', 'pipe', 'timer']"),
        ({"name": "x", "kind": "sem", "count": 1}, "'limit' is a dependency of 'count'"),
        ({"name": "x", "kind": "thread_stack"}, "'size' is a required property"),
        ({"name": "x", "kind": "mutex", "limit": 1}, "Additional properties are not allowed ('limit' was unexpected)"),
        ({"name": "x", "kind": "timer", "size": 1}, "Additional properties are not allowed ('size' was unexpected)"),
    ]
    for wrong, wanted in cases:
        same(f"what is said of {wrong}", faults_by_schema(object=[wrong]), [wanted])


def line_forms_are_those_of_the_formats() -> None:
    """The table of tools/script_lines.py and that of docs/FORMATS.md have the same lines."""
    page = (TOP / "docs" / "FORMATS.md").read_text()
    table = page[page.index("| line | in short |") : page.index("| operand | form |")]
    shown = {found for row in table.splitlines() for found in re.findall(r"`([^`]+)`", row.split(" | ")[0])}
    sys.path.insert(0, str(TOP / "tools"))
    from script_lines import FORMS, form_of

    same("forms of lines", sorted(form_of(word) for word in FORMS), sorted(shown))


def each_key_is_described() -> None:
    def undescribed(part, place) -> list:
        if isinstance(part, list):
            return [found for number, item in enumerate(part) for found in undescribed(item, f"{place}[{number}]")]
        if not isinstance(part, dict):
            return []
        here = [
            f"{place}.{key}"
            for key, value in part.get("properties", {}).items()
            if "description" not in value and place.split(".")[-1] != "contains"
        ]
        return here + [found for key, value in part.items() for found in undescribed(value, f"{place}.{key}")]

    same("keys of the schema without a description", undescribed(json.loads(SCHEMA.read_text()), ""), [])


def examples_point_to_the_schema() -> None:
    pointing = [
        source.name for source in sorted(EXAMPLES.glob("*.toml")) if source.read_text().split("\n", 1)[0] != POINTER
    ]
    same("examples whose first line isn't the schema's", pointing, [])


@needs("mandoc")
def manual_pages_are_clean() -> None:
    for page in ("docs/zumode.1", "docs/explore.1"):
        ran = subprocess.run(["mandoc", "-T", "lint", page], cwd=TOP, capture_output=True, text=True)
        same(f"what mandoc says of {page}", (ran.returncode, ran.stdout + ran.stderr), (0, ""))


@needs("mandoc")
def manual_pages_name_commands_and_statuses() -> None:
    for name, commands, codes in (("zumode", COMMANDS, "01234567"), ("explore", QUESTIONS, "0123456789")):
        page = subprocess.run(["mandoc", "-T", "ascii", f"docs/{name}.1"], cwd=TOP, capture_output=True, text=True).stdout
        plain = re.sub(r".\x08", "", page)
        synopsis = plain[plain.index("SYNOPSIS") : plain.index("DESCRIPTION")]
        same(f"commands in the synopsis of {name}", sorted(set(re.findall(rf"{name} (\w+)", synopsis))), commands)
        statuses = plain[plain.index("EXIT STATUS") : plain.index("EXAMPLES")]
        same(f"statuses of {name}", re.findall(r"^ {5}(\d) ", statuses, re.M), list(codes))


def typed_in_bash(line: str) -> str:
    """What an interactive bash has in its line, once a line and a tab are typed. The line isn't run: a key shows it."""
    terminal, end = pty.openpty()
    shell = ["bash", "--norc", "--noprofile", "-i"]
    environment = {**os.environ, "PS1": "", "TERM": "dumb", "HISTFILE": ""}
    with subprocess.Popen(shell, cwd=TOP, stdin=end, stdout=end, stderr=end, start_new_session=True, env=environment) as bash:
        os.close(end)
        os.write(terminal, b"source completions/zumode.bash; source completions/explore.bash; " + SHOW_LINE + b"; echo rea''dy\n")
        read_until(terminal, "ready\r\n")
        os.write(terminal, f"{line}\t\x14".encode())
        seen = read_until(terminal, "]]")
        bash.kill()
    os.close(terminal)
    return seen[seen.rindex("[[") + 2 : seen.rindex("]]")]


def read_until(terminal: int, end: str) -> str:
    seen, until = "", time.monotonic() + SECONDS
    while end not in seen and select.select([terminal], [], [], max(0, until - time.monotonic()))[0]:
        seen += os.read(terminal, 4096).decode()
    holds(f"bash says {seen!r}", end in seen)
    return seen


def bash_completes_files() -> None:
    for front in ("./zumode sim ", "./zumode sim < ", "./zumode audit --cpus 2 > "):
        same(f"{front}examples/last-b", typed_in_bash(f"{front}examples/last-byte.t"), f"{front}examples/last-byte.toml ")
    same("./zumode sim --c", typed_in_bash("./zumode sim --c"), "./zumode sim --cpus ")
    for front in ("./explore ends ", "./explore find event ", "./explore next --states 2 "):
        same(f"{front}examples/last-b", typed_in_bash(f"{front}examples/last-byte.t"), f"{front}examples/last-byte.toml ")
    same("./explore find exam", typed_in_bash("./explore find exam"), "./explore find exam")
    same("./explore ends --s", typed_in_bash("./explore ends --s"), "./explore ends --states ")


def completed_by_bash(*words: str, program: str = "zumode") -> list:
    """What bash completes the last of some words to."""
    script = f'source completions/{program}.bash; COMP_WORDS=("$@"); COMP_CWORD=$(($# - 1)); _{program}; printf "%s\\n" "${{COMPREPLY[@]}}"'
    ran = subprocess.run(
        ["bash", "-c", script, "bash", program, *words], cwd=TOP, capture_output=True, text=True, check=True
    )
    return ran.stdout.split()


def bash_completes_questions() -> None:
    same("explore", completed_by_bash("", program="explore"), QUESTIONS)
    same("explore ends --", completed_by_bash("ends", "--", program="explore"), ["--states"])
    same("explore find --", completed_by_bash("find", "--", program="explore"), [])
    same("explore find event --", completed_by_bash("find", "event", "--", program="explore"), ["--states"])
    same("explore ends --states", completed_by_bash("ends", "--states", "", program="explore"), [])
    same("explore ends --states 4 --", completed_by_bash("ends", "--states", "4", "--", program="explore"), [])
    same("explore next --", completed_by_bash("next", "--", program="explore"), [])
    same("explore --", completed_by_bash("--", program="explore"), ["--help", "--version"])


def bash_completes() -> None:
    same("zumode s", completed_by_bash("s"), ["sim", "summary"])
    same("zumode", completed_by_bash(""), COMMANDS)
    same("zumode sim --", completed_by_bash("sim", "--"), ["--cpus", "--pick"])
    same("zumode sim --cpus", completed_by_bash("sim", "--cpus", ""), list("12345678"))
    same("zumode summary --cpus 4 --", completed_by_bash("summary", "--cpus", "4", "--"), ["--pick"])
    same("zumode run --", completed_by_bash("run", "--"), ["--cpus"])
    same("zumode layout --", completed_by_bash("layout", "--"), [])
    same("zumode --", completed_by_bash("--"), ["--help", "--version"])
    same("zumode sim", completed_by_bash("sim", ""), [])


def completed_by_fish(line: str) -> list:
    script = f"source completions/zumode.fish; source completions/explore.fish; complete -C '{line}'"
    ran = subprocess.run(["fish", "--no-config", "-c", script], cwd=TOP, capture_output=True, text=True, check=True)
    return [found.split("\t")[0] for found in ran.stdout.splitlines()]


@needs("fish")
def fish_completes() -> None:
    same("zumode s", completed_by_fish("zumode s"), ["sim", "summary"])
    same("zumode", sorted(completed_by_fish("zumode ")), COMMANDS)
    same("zumode sim --", completed_by_fish("zumode sim --"), ["--cpus", "--pick"])
    same("zumode sim --cpus", completed_by_fish("zumode sim --cpus "), list("12345678"))
    same("zumode run --", completed_by_fish("zumode run --"), ["--cpus"])
    same("zumode layout exa", completed_by_fish("zumode layout exa"), ["examples/"])
    same("zumode gen", completed_by_fish("zumode gen "), [])
    first = completed_by_fish("zumode sim examples/last-byte")
    same("zumode sim examples/last-byte", first, ["examples/last-byte.toml", "examples/last-byte.out"])
    same("explore", sorted(completed_by_fish("explore ")), QUESTIONS)
    same("explore ends --", completed_by_fish("explore ends --"), ["--states"])
    same("explore find --", completed_by_fish("explore find --"), [])
    same("explore find event --", completed_by_fish("explore find event --"), ["--states"])
    same("explore next --", completed_by_fish("explore next --"), [])
    same("explore next exa", completed_by_fish("explore next exa"), ["examples/"])
    same("explore find exa", completed_by_fish("explore find exa"), [])


ZSH_CALLS = """
fpath=($PWD/completions $fpath); autoload -Uz _zumode _explore
_describe() { print -l ${(P)4%%:*}; }
_arguments() { print -l -- ${${@%%\\[*}%%:*}; }
words=("$@"); CURRENT=$#words; _$1
"""


@needs("zsh")
def zsh_completes() -> None:
    def offered(*words: str, program: str = "zumode") -> list:
        ran = subprocess.run(["zsh", "-f", "-c", ZSH_CALLS, "zsh", program, *words], cwd=TOP, capture_output=True, text=True)
        same("what zsh says", ran.stderr, "")
        return sorted(ran.stdout.split())

    same("zumode", offered(""), COMMANDS)
    same("zumode sim", offered("sim", ""), ["--cpus", "--pick", "1"])
    same("zumode run", offered("run", ""), ["--cpus", "1"])
    same("zumode layout", offered("layout", ""), ["1"])
    same("explore", offered("", program="explore"), QUESTIONS)
    same("explore find", offered("find", "", program="explore"), ["--states", "1", "2"])
    same("explore ends", offered("ends", "", program="explore"), ["--states", "1"])
    same("explore next", offered("next", "", program="explore"), ["1"])


def picture_is_small() -> None:
    picture = TOP / "docs" / "viewer.png"
    holds(
        "docs/viewer.png isn't there, or is too large", picture.exists() and picture.stat().st_size < MOST_PICTURE_BYTES
    )


TESTS = [
    accepted_examples_are_valid,
    refused_examples_are_not,
    schema_marks_lines,
    schema_says_what_is_wrong_of_an_object,
    line_forms_are_those_of_the_formats,
    each_key_is_described,
    examples_point_to_the_schema,
    picture_is_small,
    manual_pages_are_clean,
    manual_pages_name_commands_and_statuses,
    bash_completes,
    bash_completes_questions,
    bash_completes_files,
    fish_completes,
    zsh_completes,
]
