"""The inputs with which every run of `tests/differential` begins, but for the assemblies, which need a compiler: `tests/modes` has them too."""

import deep
import steps
import widths
from known import LAYOUTS, LIMITS, WHOLE
from values import VALUES


def all_inputs():
    """(kind, name, input)."""
    for name, case in {"the whole case": WHOLE, **{name: case for name, (case, _) in LIMITS.items()}}.items():
        yield "known", name.replace(":", ""), case
    for name, (case, _) in LAYOUTS.items():
        yield "known", "ClassLayout, " + name, case
    for name, (case, _) in VALUES.items():
        yield "values", name, case
    for name, case in steps.listed():
        yield "steps", name, case
    for name, case in widths.all_inputs():
        yield "widths", name, case
    for name, case in deep.all_inputs():
        yield "deep", "deep " + name, case
