"""The rules of plans and the limits, as the tables of `docs/RULES.md` have them."""

from __future__ import annotations

import re
from pathlib import Path

RULES = Path(__file__).resolve().parents[2] / "docs" / "RULES.md"
PLAN_CRATES = ("`plan_read`", "`sched_time`")
LAW = re.compile(r" \(the law [^)]*\)")
# The ops of a call, and the keys of their own.
OPS = re.compile(r"((?:`\w+`, )*`\w+`): ((?:`\w+`, )*`\w+`|none)")


class RulesError(Exception):
    """A heading or a table that the page has not."""


def table(heading: str) -> list[dict[str, str]]:
    """The rows of the first table below a heading, each by the names of its columns."""
    found = re.search(rf"^## {re.escape(heading)}\n(.*?)(?=^## |\Z)", RULES.read_text(), re.MULTILINE | re.DOTALL)
    lines = [line for line in found[1].split("\n") if line.startswith("---|") or " | " in line] if found else []
    if len(lines) < 3:
        raise RulesError(f"{RULES.name} has no table below '{heading}'")
    columns, _, *rows = ([cell.strip() for cell in line.split("|")] for line in lines)
    return [dict(zip(columns, row, strict=True)) for row in rows]


def of_plan_texts() -> list[str]:
    """The rules of a plan's text, of its blocks and of their units, without the names of laws."""
    return [LAW.sub("", row["Rule"]) for heading in ("Plan texts", "Blocks") for row in table(heading)]


def keys_of_calls() -> list[tuple[str, str]]:
    """The keys of its own that a call of each `op` has."""
    return [pair for row in table("Calls of a plan") for pair in OPS.findall(row["Rule"])]


def limits() -> list[tuple[str, str]]:
    """What has a limit, and which."""
    return [(what, limit) for row in table("Limits") for what, limit in [row["Rule"].split(": ", 1)]]


def limits_of_plans() -> list[tuple[str, str]]:
    """The limits of what a plan says."""
    return [(what, limit) for row in table("Limits") for what, limit in [row["Rule"].split(": ", 1)]
            if any(crate in row["Definition"] + row["Code"] for crate in PLAN_CRATES)]
