"""Which machines a program or a library runs on, as its own bytes say: the C library, and the level of the processor.

The level is that of the x86-64 ABI: 1 is any such processor. Each instruction is looked at, whether it is reached or not. `tzcnt` is
none of level 3, since older processors take its bytes for `rep bsf`, which is what compilers mean by them.
"""

from __future__ import annotations

import re
from collections.abc import Iterator
from dataclasses import dataclass
from pathlib import Path

from tools import output

SYMBOL_VERSION = re.compile(r"\bGLIBC_(\d+(?:\.\d+)+)\b")
INSTRUCTION = re.compile(r"^ *[0-9a-f]+:\t(?:(?:lock|rep[nz]*|repz|bnd|notrack|data16|cs|ds|rex\S*) )*(\S+)(.*)$")
LEVEL_4 = re.compile(r"%zmm|%k[0-7]|%[xy]mm(?:1[6-9]|2\d|3[01])")
LEVEL_3 = re.compile(r"v.+|andn|bextr|bls(?:i|msk|r)|bzhi|pdep|pext|rorx|sarx|shlx|shrx|mulx|lzcnt|movbe|f?xsave.*|xgetbv")
LEVEL_2 = re.compile(
    r"cmpxchg16b|[ls]ahf|popcnt|addsubp[sd]|h(?:add|sub)p[sd]|lddqu|mov(?:ddup|shdup|sldup)"
    r"|pshufb|ph(?:add|sub)s?[wd]|pmaddubsw|pmulhrsw|pabs[bwd]|psign[bwd]|palignr"
    r"|p?blend.*|dpp[sd]|extractps|insertps|mpsadbw|packusdw|pcmpeqq|pextr[bdq]|pinsr[bdq]|phminposuw|p(?:max|min)(?:sb|sd|ud|uw)"
    r"|pmov[sz]x.*|pmuldq|pmulld|ptest|round[ps][sd]|movntdqa|pcmp[ei]str[im]|pcmpgtq|crc32.?")
BEYOND = re.compile(r"aes.*|pclmul.*|sha(?:1|256).*|rdrand|rdseed|x(?:begin|end|abort)|ad[co]x")
VECTOR = re.compile(r"%[xyz]mm")

TOP = Path(__file__).resolve().parents[2]
# What the documents have to say of the program's machines and of the libraries'.
STATED = {
    "README.md": "for Linux on x86-64-v{level} with glibc {program} ({libraries} without the program)",
    "docs/EMBEDDING.md": "The program needs glibc {program} and the libraries {libraries}, both a processor of level {level} of x86-64",
}


@dataclass(frozen=True)
class Machine:
    """What runs a file. `beyond` are instructions that no level has."""
    glibc: tuple[int, ...]
    level: int
    beyond: frozenset[str]

    @property
    def glibc_text(self) -> str:
        """The oldest C library, as it is written."""
        return ".".join(map(str, self.glibc))

    def __str__(self) -> str:
        beyond = f", with {' '.join(sorted(self.beyond))}" if self.beyond else ""
        return f"Linux, glibc {self.glibc_text} or later, x86-64 of level {self.level} or above{beyond}"


def glibc_of(file: Path) -> tuple[int, ...]:
    """The oldest C library that has all symbols that a file takes from it."""
    needs = output(["readelf", "--version-info", "--wide", file]).partition("Version needs section")[2]
    return max(tuple(map(int, version.split("."))) for version in SYMBOL_VERSION.findall(needs))


def instructions_of(file: Path) -> Iterator[tuple[str, str]]:
    """The name and the operands of each instruction."""
    for line in output(["objdump", "--disassemble", "--no-show-raw-insn", file]).splitlines():
        words = INSTRUCTION.match(line)
        if words:
            yield words[1], words[2]


def level_of(name: str, operands: str) -> int:
    """The level that has an instruction."""
    if LEVEL_4.search(operands):
        return 4
    if LEVEL_3.fullmatch(name) and (not name.startswith("v") or VECTOR.search(operands)):
        return 3
    return 2 if LEVEL_2.fullmatch(name) else 1


def measured(file: Path) -> Machine:
    """The machines that run a program or a shared library."""
    instructions = set(instructions_of(file))
    level = max(level_of(*instruction) for instruction in instructions)
    return Machine(glibc_of(file), level, frozenset(name for name, _ in instructions if BEYOND.fullmatch(name)))


def unstated(program: Machine, libraries: Machine) -> list[str]:
    """What the documents do not say, and have to."""
    levels = {program.level, libraries.level}
    if len(levels) != 1:
        return [f"the program is of level {program.level}, and the libraries of level {libraries.level}"]
    words = {"level": program.level, "program": program.glibc_text, "libraries": libraries.glibc_text}
    wanted = {file: text.format(**words) for file, text in STATED.items()}
    return [f"{file} does not say: {text}" for file, text in wanted.items() if text not in (TOP / file).read_text()]
