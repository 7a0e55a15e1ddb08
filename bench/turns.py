"""What the turns of a program take, whose last argument says how many: those of many less those of none."""
import re, resource, shutil, subprocess

COUNTED_TURNS = 200


def processor_seconds(commands):
    """What the commands take together."""
    before = resource.getrusage(resource.RUSAGE_CHILDREN)
    for command in commands:
        subprocess.run(command, stdout=subprocess.DEVNULL, stderr=subprocess.DEVNULL, check=True)
    after = resource.getrusage(resource.RUSAGE_CHILDREN)
    return after.ru_utime + after.ru_stime - before.ru_utime - before.ru_stime


def nanoseconds(command, turns):
    """What a turn takes, the best of three."""
    best = min(processor_seconds([command + [str(turns)]]) - processor_seconds([command + ["0"]]) for _ in range(3))
    return best / turns * 1e9


def instructions(command, turns):
    """What valgrind counts."""
    counting = ["valgrind", "--tool=callgrind", "--callgrind-out-file=/dev/null"]
    told = subprocess.run(counting + command + [str(turns)], capture_output=True, text=True, check=True)
    return int(re.search(r"Collected : (\d+)", told.stderr).group(1))


def counted(command, size):
    """How many instructions a turn takes, and for each of so many bytes."""
    if shutil.which("valgrind") is None:
        return "instructions: no valgrind"
    each = (instructions(command, COUNTED_TURNS) - instructions(command, 0)) / COUNTED_TURNS
    return f"{each:9.0f} instructions, {each / size:6.1f} a byte"
