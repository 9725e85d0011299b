"""Pages of metrics in Prometheus' text format, version 0.0.4: their samples, and what is wrong with their form."""

import re

NAME, LABEL = r"[a-z][a-z0-9_]*", r'[a-z]+="(?:[^"\\\n]|\\["\\n])*"'
SAMPLE = re.compile(rf"({NAME})(?:\{{({LABEL}(?:,{LABEL})*)\}})? (\d+(?:\.\d+)?)")
KINDS = {"counter", "gauge", "histogram"}


def family_of(name, kinds):
    """The family of a sample: a histogram has samples of three endings."""
    stem = re.sub("_(bucket|sum|count)$", "", name)
    return stem if kinds.get(stem) == "histogram" else name


def read(page):
    """The samples of a page, each a number by its name with its labels, and the faults of its form."""
    samples, faults, kinds, helped, order = {}, [], {}, set(), []
    if not page.endswith("\n"):
        faults.append("no line end behind the page")
    for line in page.splitlines():
        if line.startswith("# HELP "):
            _, _, name, text = line.split(" ", 3)
            if name in helped or not text:
                faults.append(f"a second or an empty help: {line}")
            helped.add(name)
            continue
        if line.startswith("# TYPE "):
            _, _, name, kind = line.split(" ")
            if name in kinds or kind not in KINDS or name not in helped:
                faults.append(f"a type without a help, a second or another: {line}")
            kinds[name] = kind
            continue
        found = SAMPLE.fullmatch(line)
        if not found:
            faults.append(f"no sample: {line!r}")
            continue
        name, labels, number = found.groups()
        family, key = family_of(name, kinds), f"{name}{{{labels}}}" if labels else name
        if family not in kinds:
            faults.append(f"no type: {line}")
        if kinds.get(family) == "counter" and not name.endswith("_total"):
            faults.append(f"a counter is no total: {line}")
        if key in samples:
            faults.append(f"twice: {line}")
        if not order or order[-1] != family:
            order.append(family)
        samples[key] = float(number)
    if len(order) != len(set(order)):
        faults.append(f"a family in two parts: {order}")
    for name in (name for name, kind in kinds.items() if kind == "histogram"):
        faults += histogram_faults(name, samples)
    return samples, faults


def histogram_faults(name, samples):
    """What is wrong with a histogram: its buckets grow with their bounds, and the last has all."""
    buckets = [(float(key.split('le="')[1].split('"')[0].replace("+Inf", "inf")), number) for key, number in samples.items() if key.startswith(f"{name}_bucket")]
    faults = [] if buckets == sorted(buckets) and [number for _, number in buckets] == sorted(number for _, number in buckets) else [f"{name} is not cumulative: {buckets}"]
    if not buckets or buckets[-1] != (float("inf"), samples.get(f"{name}_count")) or f"{name}_sum" not in samples:
        faults.append(f"{name} has no sum, no count or another last bucket")
    return faults
