"""What runs of the program cost: their time and their memory. Benches import it."""
import os
import subprocess
import sys
import time
from pathlib import Path

TOP = Path(__file__).resolve().parent.parent
PROGRAM = Path(os.environ.get("ZUMODE", TOP / "build" / "zumode"))
MOMENT = 0.1  # seconds in which a process that isn't blocked uses the processor


def build() -> None:
    """Builds the proved program, unless ZUMODE in the environment names one."""
    built = "ZUMODE" in os.environ or subprocess.run([TOP / "prove"], stdin=subprocess.DEVNULL, check=False).returncode == 0
    if not built:
        sys.exit(1)


def output(words: list, given: bytes = b"") -> bytes:
    """What the program writes."""
    ran = subprocess.run([PROGRAM, *words], input=given, stdout=subprocess.PIPE, check=False)
    if ran.returncode != 0:
        sys.exit(f"{' '.join(words)}: status {ran.returncode}")
    return ran.stdout


def seconds(words: list, source: Path) -> float:
    """The wall time of a run, from the start of the process to its end."""
    with open(source, "rb") as given:
        start = time.perf_counter()
        ran = subprocess.run([PROGRAM, *words], stdin=given, stdout=subprocess.DEVNULL, check=False)
        taken = time.perf_counter() - start
    if ran.returncode != 0:
        sys.exit(f"{' '.join(words)}: status {ran.returncode}")
    return taken


def full_pipe() -> tuple:
    """A pipe that takes no byte before some are read."""
    reader, writer = os.pipe()
    os.set_blocking(writer, False)
    try:
        while True:
            os.write(writer, bytes(4096))
    except BlockingIOError:
        os.set_blocking(writer, True)
    return reader, writer


def ticks(process: int) -> int:
    """How much time of processors a process has used."""
    fields = Path(f"/proc/{process}/stat").read_text().rpartition(")")[2].split()
    return int(fields[11]) + int(fields[12])


def peak_mib(words: list, source: Path, program: Path = PROGRAM) -> float:
    """The greatest resident set of a run, which is asked for once the run waits to write its first byte: by then it has all its
    memory. (The usage that a parent is told of a child counts what the child shared with it before it became the program.)"""
    reader, writer = full_pipe()
    with open(source, "rb") as given, subprocess.Popen([program, *words], stdin=given, stdout=writer, stderr=writer) as child:
        os.close(writer)
        used = -1
        while used != ticks(child.pid):
            used = ticks(child.pid)
            time.sleep(MOMENT)
        status = Path(f"/proc/{child.pid}/status").read_text()
        with os.fdopen(reader, "rb") as written:
            written.read()
    return int(next(line.split()[1] for line in status.splitlines() if line.startswith("VmHWM"))) / 1024
