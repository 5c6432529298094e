"""What the service knows of a job, and of a run that is under way. All of it can be written as JSON."""

from dataclasses import dataclass, field
from functools import cached_property

from sched_jobs.basics import Json
from sched_jobs.service.orders import Order, order_of

LIVE, PAUSED, CANCELLED, MISSED = "live", "paused", "cancelled", "missed"
# Why a run has the code that it has: it ended so, or nobody saw its end, and then its job may take that as good.
RAN, LOST_SIGHT, TAKEN_AS_OK = "ran", "lost", "taken as ok"
AGAIN = {"every", "after", "cron"}


@dataclass
class Entry:
    """A job. `due`, `grid` and `task_due` are moments of the service, `aim`, `aimed` and `added` of the wall clock; `lines` count
    those that the executor has answered. A job is over once `over` says how."""

    name: str
    table: Json
    added: int
    # When it is due, where it is due once or for the first time, and the calendar time that is meant.
    due: int | None = None
    aim: int | None = None
    # The last moment of its grid, or calendar time, of which a run has begun or was left out.
    grid: int | None = None
    aimed: int | None = None
    source: str = "add"
    # It grows where the job is to run at other times than before.
    version: int = 0
    state: str = LIVE
    over: str | None = None
    # The task that the executor has for it, when its next run is due, and what that stands for.
    task: int | None = None
    task_due: int | None = None
    task_note: Json = field(default_factory=dict)
    runs: int = 0
    failed: int = 0
    missed: int = 0
    last: Json | None = None

    @cached_property
    def order(self) -> Order:
        return order_of(self.name, self.table)

    @property
    def is_open(self) -> bool:
        """Whether something may still come of it."""
        return self.over is None

    @property
    def is_once(self) -> bool:
        return AGAIN.isdisjoint(self.table)

    @property
    def is_given_up(self) -> bool:
        """Whether no run of it is wanted any more."""
        return self.state in (CANCELLED, MISSED)

    def as_json(self) -> Json:
        return {key: value for key, value in vars(self).items() if key != "order"}


@dataclass
class Running:
    """A run that the executor has given out. Moments are the service's. On many machines `node` has it, from an attempt on, and `fence`
    is the revision of the log that gave it to that node."""

    worker: int
    task: int
    number: int
    due: int
    start: int
    name: str
    node: str = ""
    attempt: int = 1
    fence: int = 0


@dataclass(frozen=True)
class Ended:
    """A run that has ended. `code` is None where the trace alone is left and does not say."""

    run: Running
    end: int
    outcome: str
    code: int | None
    why: str
    attempts: int

    @property
    def is_failed(self) -> bool:
        return self.outcome == "failed" or bool(self.code) and self.why != TAKEN_AS_OK
