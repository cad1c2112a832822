"""The picture of a sweep: for each protocol what it costs where nothing fails, and what is seen again where things fail."""
from html import escape

# In pixels: a row, a bar, how long the longest bar is, what stands in the middle and outside the bars, and the edge.
ROW, BAR, LONGEST, MIDDLE, ASIDE, EDGE = 34, 10, 210, 96, 52, 14
TITLE, HEAD, LEGEND = 34, 54, 34
STYLE = """text{font:11px sans-serif;fill:#000} .title{font:14px sans-serif} .name{text-anchor:middle;font-weight:bold}
.left{text-anchor:end} .commits,.rio{fill:#000;stroke:#000} .disk{fill:#fff;stroke:#000}"""
MEANT = {"rio": "recoverable memory", "disk": "disk"}


def per_thousand(part, whole):
    """How many of a thousand; none where there is nothing to count of."""
    return 1000 * int(part) / int(whole) if whole not in ("", 0) else None


def costs_of(rows):
    """For each protocol its commits for 1,000 events, and by medium its repeated records for 1,000."""
    costs = {}
    for row in rows:
        commits, again = costs.setdefault(row["protocol"], (per_thousand(row["commits"], row["events"]), {}))
        again[row["medium"]] = per_thousand(row["repeats"], row["records"])
    return costs


def number_text(number):
    return f"{number:.0f}" if number >= 100 else f"{number:.1f}" if number >= 10 else f"{number:.2g}"


def text(x, y, words, kind=""):
    return f'<text x="{x:g}" y="{y:g}"{f" class={chr(34)}{kind}{chr(34)}" if kind else ""}>{escape(words)}</text>'


def bar(x, y, width, kind):
    return f'<rect x="{x:g}" y="{y:g}" width="{width:g}" height="{BAR}" class="{kind}"/>'


def scale_of(numbers):
    """Pixels for one of what is counted, so that the longest bar fits."""
    return LONGEST / max([number for number in numbers if number] or [1])


def row_drawn(y, protocol, cost, commit_scale, repeat_scale):
    """The bars of a protocol: to the left its commits, to the right what is seen again on each medium."""
    commits, again = cost
    left, right = EDGE + ASIDE + LONGEST, EDGE + ASIDE + LONGEST + MIDDLE
    yield text((left + right) / 2, y + ROW / 2, protocol, "name")
    if commits is not None:
        width = commits * commit_scale
        yield bar(left - width, y + ROW / 2 - BAR / 2 - 4, width, "commits")
        yield text(left - width - 5, y + ROW / 2, number_text(commits), "left")
    for at, (medium, share) in enumerate(again.items()):
        if share is not None:
            top = y + ROW / 2 - 4 - len(again) * BAR / 2 + at * (BAR + 1)
            yield bar(right, top, share * repeat_scale, medium)
            yield text(right + share * repeat_scale + 5, top + BAR - 1, number_text(share))


def legend(y, media):
    """What the bars to the right are."""
    x = EDGE + ASIDE + LONGEST + MIDDLE
    for at, medium in enumerate(media):
        yield bar(x + at * 140, y, 14, medium)
        yield text(x + at * 140 + 19, y + BAR - 1, MEANT[medium])


def drawn(rows, title):
    """The picture as the text of an SVG file."""
    costs = costs_of(rows)
    media = list(dict.fromkeys(row["medium"] for row in rows))
    commit_scale = scale_of([commits for commits, _ in costs.values()])
    repeat_scale = scale_of([share for _, again in costs.values() for share in again.values()])
    width, height = 2 * (EDGE + ASIDE + LONGEST) + MIDDLE, TITLE + HEAD + ROW * len(costs) + LEGEND
    left, right = EDGE + ASIDE + LONGEST, EDGE + ASIDE + LONGEST + MIDDLE
    parts = [
        text(EDGE, TITLE - 12, title, "title"),
        text(left, TITLE + 12, "commits for 1,000 events,", "left"),
        text(left, TITLE + 26, "where nothing fails", "left"),
        text(right, TITLE + 12, "records seen again for 1,000,"),
        text(right, TITLE + 26, "where things fail"),
    ]
    for at, (protocol, cost) in enumerate(costs.items()):
        parts += row_drawn(TITLE + HEAD + at * ROW - 8, protocol, cost, commit_scale, repeat_scale)
    parts += legend(height - LEGEND + 10, media)
    head = f'<svg xmlns="http://www.w3.org/2000/svg" width="{width}" height="{height}" viewBox="0 0 {width} {height}">'
    ground = f'<rect width="{width}" height="{height}" fill="#fff"/>'
    return "\n".join([head, f"<title>{escape(title)}</title>", f"<style>{STYLE}</style>", ground, *parts, "</svg>", ""])
