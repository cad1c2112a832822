"""The tables of a sweep: what came of each run, and of each protocol."""
import csv
import os
from statistics import median

from batch import came_of

RUN_COLUMNS = [
    *["protocol", "medium", "seed", "status", "entries", "acts", "records", "lines", "repeats"],
    *["stops", "stops_by_process", "seconds", "peak_kib", "check"],
]
JOURNAL_COLUMNS = ["turns", "events", "nd", "logged", "visible", "sends", "receives", "commits"]
PROTOCOL_COLUMNS = [
    *["protocol", "medium", *JOURNAL_COLUMNS],
    *["runs", "records", "repeats", "least_repeats", "median_repeats", "most_repeats"],
]


def written(path, columns, rows):
    """Writes a table whole or not at all."""
    with open(f"{path}.part", "w", encoding="utf-8", newline="") as file:
        table = csv.DictWriter(file, columns, restval="", extrasaction="ignore")
        table.writeheader()
        table.writerows(rows)
    os.replace(f"{path}.part", path)


def row_of_run(run, came):
    """A run's line of the table."""
    stops = came.get("stops")
    told = {} if stops is None else {"stops": sum(stops), "stops_by_process": " ".join(map(str, stops))}
    return {"protocol": run.protocol, "medium": run.medium, "seed": "" if run.seed is None else run.seed, **came, **told}


def row_of_protocol(protocol, medium, journal, all_came):
    """A protocol's line of the table, on one medium: of the run without stops, and of those that ended well."""
    well = [came for came in all_came if came.get("check") == "ok"]
    repeats = [came["repeats"] for came in well]
    shown = {"runs": len(well), "records": sum(came["records"] for came in well), "repeats": sum(repeats)}
    if repeats:
        shown.update(least_repeats=min(repeats), median_repeats=f"{median(repeats):g}", most_repeats=max(repeats))
    return {"protocol": protocol, "medium": medium, **{key: journal.get(key, "") for key in JOURNAL_COLUMNS}, **shown}


def table_runs(folder, runs, path):
    """Writes the table of the runs that were done."""
    done = [(run, came_of(run, folder)) for run in runs]
    written(path, RUN_COLUMNS, [row_of_run(run, came) for run, came in done if came])


def table_protocols(folder, runs, journals, path):
    """Writes the table of the protocols, a line for each with each medium. Its rows."""
    groups = {}
    for run in runs:
        groups.setdefault((run.protocol, run.medium), []).append(came_of(run, folder))
    by_protocol = {run.protocol: came_of(run, folder) for run in journals}
    rows = [row_of_protocol(protocol, medium, by_protocol[protocol], came) for (protocol, medium), came in groups.items()]
    written(path, PROTOCOL_COLUMNS, rows)
    return rows
