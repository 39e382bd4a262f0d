"""The program that is measured, and what it takes for a script. For the commands beside it."""
import os
import re
import subprocess
import sys
import tempfile

HERE = os.path.dirname(os.path.abspath(__file__))


def program():
    """The program that is measured."""
    if "PROGRAM" in os.environ:
        return os.environ["PROGRAM"]
    first = f"{HERE}/../examples/first.script"
    subprocess.run(["bash", f"{HERE}/../run", first], check=True, stdout=subprocess.DEVNULL)
    return f"{HERE}/../crates/ckptsim/out/ckptsim"


def played(program, lines):
    """The instructions that a script takes, and how many of its calls were refused."""
    with tempfile.TemporaryFile("w+") as script:
        script.write("\n".join(lines) + "\n")
        script.seek(0)
        words = ["valgrind", "--tool=callgrind", "--callgrind-out-file=/dev/null", program, "run"]
        run = subprocess.run(
            words, stdin=script, capture_output=True, text=True, check=True, env={"PATH": os.environ["PATH"]}
        )
    if re.search("[A-Z_]{3,}", run.stdout):
        sys.exit("a call was not answered OK")
    return int(re.search(r"Collected : (\d+)", run.stderr).group(1))


def blocks(program, lines):
    """The blocks of memory that a script takes, from its beginning to its end."""
    with tempfile.TemporaryDirectory() as room:
        library, report = f"{room}/allocations.so", f"{room}/report"
        compiler = os.environ.get("CC", "cc")
        subprocess.run([compiler, "-O2", "-shared", "-fPIC", "-o", library, f"{HERE}/allocations.c"], check=True)
        env = {"PATH": os.environ["PATH"], "LD_PRELOAD": library, "REPORT": report}
        script = "\n".join(lines) + "\n"
        subprocess.run([program, "run"], input=script, text=True, stdout=subprocess.DEVNULL, check=True, env=env)
        with open(report) as told:
            return int(told.read().split()[0])


def most_memory(program, lines):
    """The most memory that a script takes at a time, in bytes."""
    with tempfile.TemporaryFile("w+") as script:
        script.write("\n".join(lines) + "\n")
        script.seek(0)
        run = subprocess.Popen([program, "run"], stdin=script, stdout=subprocess.DEVNULL)
        _, status, used = os.wait4(run.pid, 0)
    if status != 0:
        sys.exit("the program did not end with 0")
    return used.ru_maxrss * 1024
