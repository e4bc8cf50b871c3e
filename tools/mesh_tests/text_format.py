"""A reader of the text format of Prometheus: the samples, each of a metric with a HELP and a TYPE before it."""

import re

SAMPLE = re.compile(r'([a-zA-Z_:][a-zA-Z0-9_:]*)(?:\{((?:[a-zA-Z_][a-zA-Z0-9_]*="(?:[^"\\\n]|\\[\\n"])*",?)*)\})? (\S+)')
LABEL = re.compile(r'([a-zA-Z_][a-zA-Z0-9_]*)="((?:[^"\\\n]|\\[\\n"])*)"')


def unescaped(value: str) -> str:
    """The value of a label as it was before it was escaped."""
    return re.sub(r"\\(.)", lambda it: {"n": "\n"}.get(it[1], it[1]), value)


def samples_of(text: str) -> dict[tuple, float]:
    """The samples by their names and labels; a ValueError where the text is none of the format."""
    types: dict[str, str] = {}
    samples: dict[tuple, float] = {}
    for line in text.splitlines():
        if line.startswith("# TYPE "):
            name, form = line.split()[2:]
            if name in types or form not in ("gauge", "counter"):
                raise ValueError(line)
            types[name] = form
        elif not line.startswith("# HELP "):
            match = SAMPLE.fullmatch(line)
            key = match and (match[1], *((name, unescaped(it)) for name, it in LABEL.findall(match[2] or "")))
            if not match or match[1] not in types or key in samples:
                raise ValueError(line)
            samples[key] = float(match[3])
    return samples
