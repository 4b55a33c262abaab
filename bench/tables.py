"""What the measuring scripts share: running a program, and writing a part of docs/performance.md."""
import os
import pathlib
import platform
import resource
import shutil
import subprocess
import sys
import textwrap
import time

TOP = pathlib.Path(__file__).resolve().parent.parent
PAGE = TOP / "docs" / "performance.md"
HEAD = """# Performance

Each part below is written by the script that it names, which reads the built programs and builds none of them.
"""


def built(name):
    """The path of a built program; ends the script where it isn't there."""
    program = TOP / "crates" / name / "out" / name
    if not os.access(program, os.X_OK):
        sys.exit(f"no program {program}: build it first, by 'rt run' in crates/{name}")
    return program


def seconds_and_text(program, words, folder, given=os.devnull):
    """Runs the program once on the file `given` as standard input: its wall clock seconds, and its standard output."""
    output = pathlib.Path(folder) / "printed"
    with open(given, "rb") as source, open(output, "wb") as sink:
        start = time.perf_counter()
        subprocess.run([str(program), *words], cwd=folder, stdin=source, stdout=sink, check=False)
        seconds = time.perf_counter() - start
    return seconds, output.read_bytes()


def best(program, words, folder, runs=3, given=os.devnull):
    """The least wall clock time of some runs, and what the last one printed."""
    results = [seconds_and_text(program, words, folder, given) for _ in range(runs)]
    return min(r[0] for r in results), results[-1][1]


def spent(program, words, folder, given=os.devnull):
    """Runs the program once: the seconds of the user's part of the processor, and its standard output."""
    before = resource.getrusage(resource.RUSAGE_CHILDREN).ru_utime
    _, text = seconds_and_text(program, words, folder, given)
    return resource.getrusage(resource.RUSAGE_CHILDREN).ru_utime - before, text


def least(program, words, folder, runs=3, given=os.devnull):
    """The least seconds of the user's part of the processor in some runs, and what the last one printed."""
    results = [spent(program, words, folder, given) for _ in range(runs)]
    return min(r[0] for r in results), results[-1][1]


def peak(program, words, folder, given=os.devnull):
    """The peak of the memory that the program holds, in KiB, or None without /usr/bin/time. A small parent asks for it,
    since the system counts what the parent held when it started the program."""
    if not os.access("/usr/bin/time", os.X_OK):
        return None
    note = pathlib.Path(folder) / "peak"
    with open(given, "rb") as source:
        subprocess.run(["/usr/bin/time", "-f", "%M", "-o", str(note), str(program), *words], cwd=folder, stdin=source,
                       stdout=subprocess.DEVNULL, stderr=subprocess.DEVNULL, check=False)
    return int(note.read_text().split()[-1])


def rust_program(name, folder):
    """Builds bench/NAME.rs into the folder: the built program, and the compiler in a few words."""
    if shutil.which("rustc") is None:
        sys.exit(f"no rustc to build bench/{name}.rs with")
    program = pathlib.Path(folder) / name
    source = TOP / "bench" / f"{name}.rs"
    subprocess.run(["rustc", "-O", "--edition", "2021", "-o", str(program), str(source)], check=True)
    told = subprocess.run(["rustc", "--version"], capture_output=True, text=True, check=True).stdout
    return program, told.split(" (")[0]


def machine():
    """The machine in a few words."""
    model = platform.machine()
    for line in pathlib.Path("/proc/cpuinfo").read_text().splitlines():
        if line.startswith("model name"):
            model = line.split(":", 1)[1].strip()
            break
    return f"{model}, {os.cpu_count()} processors, {platform.system()}"


def wrapped(text):
    """The text with its paragraphs and list items wrapped; tables, headings and indented lines stay as they are."""
    blocks = []
    for line in text.strip().split("\n"):
        fixed = not line.strip() or line.startswith(("#", "|", "    "))
        begins = fixed or line.startswith("- ") or not blocks or blocks[-1][0]
        if begins:
            blocks.append((fixed, line))
        else:
            blocks[-1] = (False, f"{blocks[-1][1]} {line.strip()}")
    return "\n".join(line if fixed else textwrap.fill(line, 118, subsequent_indent="  " if line.startswith("- ") else "",
                                                      break_long_words=False, break_on_hyphens=False)
                     for fixed, line in blocks)


def put(name, text):
    """Puts the text between the marks of this part of docs/performance.md, at its end where there are none yet."""
    begin, end = f"<!-- {name} -->", f"<!-- end of {name} -->"
    page = PAGE.read_text() if PAGE.exists() else HEAD
    part = f"{begin}\n{wrapped(text)}\n{end}"
    if begin in page:
        before, rest = page.split(begin, 1)
        page = before + part + rest.split(end, 1)[1]
    else:
        page = page.rstrip("\n") + "\n\n" + part + "\n"
    PAGE.parent.mkdir(exist_ok=True)
    PAGE.write_text(page)
