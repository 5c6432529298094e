"""The examples in the modules of the package, and those in Python on the pages that show some."""

import doctest
import importlib
import pkgutil

from recorded_timers import PYTHON

TOP = PYTHON.parent.parent
PAGES = ["docs/EMBEDDING.md", "bindings/python/README.md"]
# What shows what it does by examples. What has the calls of a header alone, or only types, has
# none.
SHOWN = ["", "._gate", "._numbers", "._sleepers", "._spans", ".delay_queue", ".errors", ".executor",
         ".scheduled_pool", ".timers", ".timers_answers"]


def modules():
    """Each module of the package, and whether it has to have examples."""
    package = importlib.import_module("sched_timers")
    names = ["", *(f".{module.name}" for module in pkgutil.iter_modules(package.__path__))]
    assert set(SHOWN) <= set(names), names
    for name in names:
        yield importlib.import_module(f"sched_timers{name}"), name in SHOWN


for module, has_examples in modules():
    failed, tried = doctest.testmod(module)
    assert failed == 0 and (tried > 0) == has_examples, (module, failed, tried)
for page in PAGES:
    failed, tried = doctest.testfile(str(TOP / page), module_relative=False, encoding="utf-8")
    assert failed == 0 and tried > 0, (page, failed, tried)
print("each answer came")
