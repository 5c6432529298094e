"""The page of `man` and docs/SERVICE.md say each command, option and key, and shells complete them."""

import re
import shutil
import subprocess

from house import TOP, Checks
from sched_jobs import completions
from sched_jobs.service.orders import ORDER_KEYS
from sched_jobs.service.requests import REQUESTS

PAGE = TOP / "sched-jobs.1"
GUIDE = TOP.parent / "docs" / "SERVICE.md"
OF_ALL = {"--help", "--state", "--json"}
FORMATS = [
    ["man", "--warnings", "-E", "UTF-8", "-l", "-Tutf8", "-Z"], ["groff", "-man", "-Tutf8", "-ww"], ["mandoc", "-Tlint", "-Werror"],
]
# What bash completes of some words, the last of which is begun.
BASH = """
source /dev/stdin <<< "$1"
shift
COMP_WORDS=("$@")
COMP_CWORD=$(($# - 1))
_sched_jobs
echo "${COMPREPLY[@]}"
"""


def said(_: str) -> Checks:
    page, guide, found = PAGE.read_text().replace("\\-", "-"), GUIDE.read_text(), completions.options()
    yield "each request is a command", set(REQUESTS) <= found.keys()
    for name in found:
        yield f"{name} in the page", re.search(rf"\b{name}\b", page) is not None
        yield f"{name} in the guide", re.search(rf"`{name}\b", guide) is not None
    for option in {option for name, options in found.items() if name != "run" for option in options}:
        yield f"{option} in the page", option in page
        yield f"{option} in the guide", option in OF_ALL | {"--sched"} or option in guide
    for key in ORDER_KEYS:
        yield f"{key} in the guide", f"`{key}`" in guide


def formats(_: str) -> Checks:
    for page in (PAGE, TOP / "sched-jobs-run.1"):
        for words in FORMATS:
            if shutil.which(words[0]):
                ran = subprocess.run([*words, page], stdout=subprocess.DEVNULL, stderr=subprocess.PIPE)
                yield f"{words[0]} takes {page.name}", (ran.returncode, ran.stderr) == (0, b"")
    unit = TOP / "sched-jobs@.service"
    if shutil.which("systemd-analyze"):
        ran = subprocess.run(["systemd-analyze", "verify", "--man=no", unit], capture_output=True, text=True)
        told = [line for line in ran.stderr.splitlines() if "sched-jobs@" in line]
        faults = [line for line in told if "not executable" not in line and "No such file" not in line]
        yield f"systemd takes the unit: {faults}", not faults


def completed(_: str) -> Checks:
    for words, wanted in [
        (["sched-jobs", "st"], "stop status"), (["sched-jobs", "add", "x", "--on-c"], "--on-crash --on-cancel"),
        (["sched-jobs", "add", "x", "--catch-up", ""], "last all none"), (["sched-jobs", "stop", "--l"], "--leave"),
    ]:
        ran = subprocess.run(["bash", "-c", BASH, "bash", completions.bash(), *words], capture_output=True, text=True)
        yield f"bash: {words}: {ran.stdout}{ran.stderr}", (ran.stdout, ran.stderr) == (wanted + "\n", "")
    for shell, text in (("zsh", completions.zsh()), ("fish", completions.fish())):
        if shutil.which(shell):
            yield f"{shell} reads its file", subprocess.run([shell, "-n"], input=text, text=True).returncode == 0


TESTS = [said, formats, completed]
