"""What the files of worked runs share: their imports, their image, and the run that an output shows."""
import re
import tomllib

from antt_words import filled, listed
from described_image import Image
from shown_dump import Dump
from traced_run import Run

# The names that a file may use, each with its import.
VARIANTS = {
    "Access": "names", "Errno": "names", "Kind": "names", "Mode": "names", "Mpu": "names", "PartRef": "names", "Policy": "names", "Ref": "names",
    "Reply": "names", "Term": "names", "Timeout": "names", "Want": "names", "Act": "act", "Answer": "act", "Cause": "act", "Found": "act",
    "Given": "act", "Leftover": "act", "SetSaid": "act", "Setup": "image", "Instr": "instr",
}


def uses(word, text):
    """Whether a text uses a name, as a whole name and no part of one."""
    return re.search(rf"(?<![\w.\"]){re.escape(word)}(?![\w\"])", text) is not None


def imports(text, own):
    """The imports of a text: those of its names, and its own ones."""
    text = re.sub(r"(?m)^--.*$", "", text)
    plain = [w for w in ("ℕ", "true", "false") if uses(w, text)]
    plain += ["List", "[]"] + (["◌∷◌"] if "∷" in text else [])
    plain += [w for w in ("Some", "None", "pos", "negsuc", "codes") if uses(w, text)]
    lines = [f"use Rattle.std.specs.Prelude.{{◌≡◌, {', '.join(plain)}, refl}}"]
    lines += [f"use Rattle.um_base.specs.declared.{module}.{name}.TheVariants as {name}" for name, module in VARIANTS.items() if f"{name}." in text]
    lines.append("use Rattle.um_base.specs.declared.act.Event.{Event}")
    lines.append("use Rattle.um_base.specs.declared.image.Image.{Image}")
    if uses("script_0", text):
        lines.append("use Rattle.um_base.specs.declared.image.Script.{Script}")
    lines += own
    lines.append("use Rattle.um_machine.specs.Run.{blank}")
    ways = [w for w in ("skips", "begins", "exits", "stops", "leaves", "cleans", "recycles", "ticks", "times_out", "expires", "cuts", "goes") if uses(w, text)]
    lines.append(f"use Rattle.um_worked_runs.specs.Evaluate.{{{', '.join(['Choice', *ways])}}}")
    words = "unborn started doomed ended waits ready initialised uninitialised gone nothing named filled unlocked locked closed joining watching timer".split()
    lines.append(f"use Rattle.um_worked_runs.specs.Dump.{{{', '.join(['Dump', *[w for w in words if uses(w, text)]])}}}")
    short = [w for w in ("at", "thread", "row", "range", "rights", "by", "on", "choose") if re.search(rf"(?<![\w.]){w} (?!=)", text)]
    if short:
        lines.append(f"use Rattle.um_worked_runs.specs.Words.{{{', '.join(short)}}}")
    lines.append("use Rattle.um_worked_runs.specs.Whole.{whole_run}")
    return "\n".join(lines)


def shown(description, output):
    """The image of a description, and the run and the dump that an output shows of it."""
    image = Image(tomllib.loads(description))
    trace, _, closing = ("\n" + output).partition("\ndump\n")
    run, dump = Run(image), Dump(image)
    for line in trace.split("\n"):
        if line:
            run.add(line)
    for line in closing.splitlines():
        dump.add(line)
    return image, run, dump


def parts(image, run, dump):
    """The definitions of an image, and of the choices, the events and the dump of its run."""
    scripts = [f"abbrev pub script_{i} : Script\nscript_{i} =\n    {image.script_record(i)}" for i in range(len(image.scripts))]
    return scripts + [
        f"abbrev pub image : Image\nimage =\n{image.text()}",
        f"-- which thread makes each step, and which one\nabbrev pub choices : List Choice\nchoices =\n    {filled(run.choices)}",
        f"-- what the trace shows\nabbrev pub events : List Event\nevents =\n    {listed(run.events)}",
        f"abbrev pub dump : Dump\ndump =\n{dump.text()}",
    ]


# the lemma that the choices are a complete run, with these events and this dump
RUNS = (
    "pub runs : whole_run image choices ≡ record { events = events; is_lawful = true; is_complete = true; dump = dump }\n"
    "unfolding blank\nruns = refl"
)


def title_of(description):
    """What a description's first line says."""
    first = description.partition("\n")[0]
    return first.removeprefix("#").strip() if first.startswith("#") else "A worked run."


def module(folder):
    return "".join(word.capitalize() for word in re.split(r"[-_]", folder.name))
