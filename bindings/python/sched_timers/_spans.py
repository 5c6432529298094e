"""Spans of seconds, in whole nanoseconds."""

from __future__ import annotations

import math

from sched_timers.timers_errors import (LONGEST_SPAN, NotASpanError, SpanTooLongError,
                                        ZeroPeriodError)

NANOSECONDS = 1_000_000_000   # in a second


def delay_of(seconds: float) -> int:
    """A delay in nanoseconds. One below 0 counts as 0.

    >>> delay_of(0.5), delay_of(-1), delay_of(float("-inf"))
    (500000000, 0, 0)
    >>> delay_of(1e300)   # doctest: +NORMALIZE_WHITESPACE
    Traceback (most recent call last):
    sched_timers.timers_errors.SpanTooLongError: a span of 1e+300 seconds is above the longest,
    4611686018.427387904 seconds, which are 2^62 nanoseconds
    """
    if _is_nan(seconds):
        raise NotASpanError(seconds, "seconds")
    if seconds <= 0:
        return 0
    nanoseconds = seconds * NANOSECONDS
    if nanoseconds > LONGEST_SPAN:
        raise SpanTooLongError(seconds, "seconds")
    return round(nanoseconds)


def period_of(seconds: float) -> int:
    """A period, or a delay between runs, in nanoseconds, of which it has one at least.

    >>> period_of(1e-9)
    1
    >>> period_of(1e-10)   # doctest: +NORMALIZE_WHITESPACE
    Traceback (most recent call last):
    sched_timers.timers_errors.ZeroPeriodError: a period, or a delay between runs, of 1e-10 seconds
    is less than 1 nanosecond
    """
    period = delay_of(seconds)
    if period == 0:
        raise ZeroPeriodError(seconds, "seconds")
    return period


def _is_nan(seconds: float) -> bool:
    """Whether it is the float that is no number. A TypeError: it is nothing like a number."""
    try:
        if not isinstance(seconds, bool):
            return math.isnan(seconds)
    except OverflowError:
        return False   # a whole number above all floats
    except TypeError:
        pass
    raise TypeError(f"a number of seconds is wanted, not {seconds!r}")
