"""Which runs a sweep has, and the plan of each."""
import json
import os
import tomllib
from typing import NamedTuple, Optional

PROTOCOLS = ["cand", "cand-log", "cpvs", "cbndvs", "cbndvs-log", "cpv-2pc", "cbndv-2pc"]
MEDIA = ["rio", "disk"]
MOST_SEED, MOST_RUNS = 2**63 - 1, 100000

# The journal of a protocol is written of a schedule in this file, which has no stops.
TURNS = "dc.turns"


class Refused(Exception):
    """Why a sweep is not done."""


class Run(NamedTuple):
    """A run by its protocol, its medium and its seed, if it has one; or the journal of its protocol, which has no medium."""

    protocol: str
    medium: Optional[str]
    seed: Optional[int]

    @property
    def is_journal(self):
        return self.medium is None

    @property
    def name(self):
        if self.is_journal:
            return f"{self.protocol}_journal"
        return f"{self.protocol}_{self.medium}" + ("" if self.seed is None else f"_{self.seed}")


def run_named(name):
    """The run of this name."""
    protocol, medium, *seed = name.split("_")
    return Run(protocol, None if medium == "journal" else medium, int(seed[0]) if seed else None)


def plan_read(path):
    """A plan, refused where it is no TOML document; the program says of all else what is wrong with it."""
    try:
        with open(path, "rb") as file:
            return tomllib.load(file)
    except (OSError, tomllib.TOMLDecodeError) as error:
        raise Refused(f"{path}: {error}") from error


def files_of(plan):
    """The names of the files that a plan names, which lie in its folder."""
    guests = plan.get("guests")
    names = [*(guests if isinstance(guests, list) else []), plan.get("schedule")]
    names = list(dict.fromkeys(name for name in names if isinstance(name, str)))
    for name in names:
        if os.path.isabs(name) or ".." in name.split("/"):
            raise Refused(f"{name} lies outside the plan's folder")
        if name in (TURNS, "plan.toml"):
            raise Refused(f"{name}: a file of a sweep's own has this name")
    return names


def value_text(value):
    """A value of a plan as TOML has it: a number, a text or an array."""
    return f"[{', '.join(map(value_text, value))}]" if isinstance(value, list) else json.dumps(value, ensure_ascii=False, default=str)


def plan_text(plan):
    """A plan as text, its stops last."""
    stops = plan.get("stop", [])
    lines = [f"{key} = {value_text(value)}\n" for key, value in plan.items() if value is not stops]
    for table in stops:
        lines += ["\n[[stop]]\n", *[f"{key} = {value_text(value)}\n" for key, value in table.items()]]
    return "".join(lines)


def plan_of(run, plan):
    """The plan of a run, as its sweep's is changed."""
    if run.is_journal:
        kept = {key: value for key, value in plan.items() if key not in ("seed", "turns", "stop", "schedule")}
        return {**kept, "protocol": run.protocol, "schedule": TURNS}
    changed = {**plan, "protocol": run.protocol, "medium": run.medium}
    return changed if run.seed is None else {**changed, "seed": run.seed}


def runs_of(plan, protocols, media, seeds):
    """The runs of a sweep: under each protocol, on each medium, with each seed; where they are not given, by the plan's own."""
    if seeds is not None and "seed" not in plan:
        raise Refused("the plan has no seed, so --seeds would change nothing")
    protocols = protocols or [plan.get("protocol")]
    media = media or [plan.get("medium")]
    seeds = seeds if seeds is not None else [plan.get("seed")]
    if len(protocols) * len(media) * len(seeds) > MOST_RUNS:
        raise Refused(f"these are over {MOST_RUNS} runs")
    return [Run(protocol, medium, seed) for protocol in protocols for medium in media for seed in seeds]


def journals_of(runs):
    """The journal of each protocol."""
    return [Run(protocol, None, None) for protocol in dict.fromkeys(run.protocol for run in runs)]
