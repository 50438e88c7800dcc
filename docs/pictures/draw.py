"""Draws the pictures of the documents from the data below, and the times from docs/figures.json.

draw.py           writes the files beside this one
draw.py --check   compares them with what stands here; the last line is 'N passed, M failed'
"""
import json
import pathlib
import sys

STYLE = """<style>
text { font: 14px system-ui, sans-serif; fill: #1f2328 }
.small { font-size: 12px; fill: #59636e }
.strong { font-weight: 600 }
.box { fill: #f6f8fa; stroke: #59636e }
.line { stroke: #59636e; fill: none }
.one { fill: #0969da } .two { fill: #bf8700 } .three { fill: #1a7f37 } .four { fill: #8250df }
.on { fill: #ffffff }
@media (prefers-color-scheme: dark) {
text { fill: #f0f6fc }
.small { fill: #9198a1 }
.box { fill: #151b23; stroke: #9198a1 }
.line { stroke: #9198a1 }
.one { fill: #1f6feb } .two { fill: #9e6a03 } .three { fill: #238636 } .four { fill: #8957e5 }
.on { fill: #ffffff }
}
</style>"""

# What stands on what, the lowest last: a name, and what it knows.
LAYERS = [
    ("rr, rr_hello, rr_example_jobs ..", "programs"),
    ("rr_shared_ports  rr_shared  rr_locked", "threads: ports and commands under a lock"),
    ("rr_ports  rr_run", "iceoryx2's names; lists of commands"),
    ("rr_hub", "the core: each call is a step of the message machine"),
    ("rr_creating .. rr_releasing", "the calls that have several steps, a crate for each kind"),
    ("rr_store", "ports, handles and messages: two sides and a table"),
    ("rr_protocol   rr_laws", "limits and errors; the message machine, and laws of its runs"),
    ("rr_slots   rr_sender   rr_table", "slots, queues, values by number"),
]

# A request's story: who calls, what is called, and what the hub does then.
STORY = [
    ("client", "send_copy(&mut hub, question)", "takes a slot, and queues it for each server"),
    ("server", "receive(&mut hub)", "an active request holds the slot"),
    ("server", "send_copy(&mut hub, answer)", "queues a response for this request alone"),
    ("client", "receive(&mut hub)", "the oldest response of some server"),
    ("client", "set_disconnect_hint(&mut hub)", "has_disconnect_hint is true from then on"),
    ("server", "release(&mut hub)", "ends the active request"),
    ("client", "release(&mut hub)", "drops its responses, and frees its slot"),
]

# The terms of a client's worst case with iceoryx2's defaults: 2 servers, 4 active requests, 2 loaned ones.
POOL = [
    ("one", 4, "active requests of the first server"),
    ("two", 4, "queued for the first server"),
    ("one", 4, "active requests of the second server"),
    ("two", 4, "queued for the second server"),
    ("three", 4, "pending responses"),
    ("four", 2, "on loan"),
]

def picture(width, height, title, parts):
    """Returns a picture of parts."""
    head = f'<svg xmlns="http://www.w3.org/2000/svg" viewBox="0 0 {width} {height}" width="{width}" height="{height}" role="img">'
    return "\n".join([head, f"<title>{title}</title>", STYLE, *parts, "</svg>", ""])


def text(x, y, words, kind="", anchor="start"):
    """Returns a line of text."""
    marks = f' class="{kind}"' if kind else ""
    words = words.replace("&", "&amp;").replace("<", "&lt;").replace(" " * 2, "\u00a0\u00a0")
    return f'<text x="{x}" y="{y}" text-anchor="{anchor}"{marks}>{words}</text>'


def box(x, y, width, height, kind="box"):
    """Returns a rectangle."""
    return f'<rect x="{x}" y="{y}" width="{width}" height="{height}" rx="4" class="{kind}"/>'


def line(x1, y1, x2, y2):
    """Returns a line."""
    return f'<path d="M{x1} {y1}L{x2} {y2}" class="line"/>'


def layers():
    """Returns the layers as boxes above one another."""
    parts = []
    for index, (name, knows) in enumerate(LAYERS):
        top = 10 + index * 52
        parts += [box(10, top, 700, 44), text(24, top + 27, name, "strong"), text(324, top + 27, knows, "small")]
    return picture(720, 20 + len(LAYERS) * 52, "The layers of the repository, the lowest last", parts)


def story():
    """Returns a request's story as lifelines of a client, the hub and a server."""
    lanes = {"client": 90, "hub": 360, "server": 630}
    bottom = 60 + len(STORY) * 56
    parts = []
    for name, x in lanes.items():
        parts += [box(x - 60, 10, 120, 30), text(x, 30, name, "strong", "middle"), line(x, 40, x, bottom)]
    for index, (who, call, does) in enumerate(STORY):
        y = 80 + index * 56
        start, end = lanes[who], lanes["hub"]
        step = 8 if end > start else -8
        parts += [line(start, y, end, y), line(end - step, y - 5, end, y), line(end - step, y + 5, end, y)]
        parts.append(text((start + end) / 2, y - 8, call, "", "middle"))
        side = 10 if who == "client" else -10
        parts.append(text(end + side, y + 20, does, "small", "start" if who == "client" else "end"))
    return picture(720, bottom + 10, "A request's story", parts)


def pool():
    """Returns what fills a client's pool, a slot a square."""
    parts = [text(10, 26, "A client's pool with iceoryx2's defaults: 2 + 4 * (1 + 2 * 2) = 22 slots", "strong")]
    x = 10
    for index, (kind, count, words) in enumerate(POOL):
        for slot in range(count):
            parts.append(box(x, 44, 28, 28, kind))
            x += 31
        y = 104 + index * 26
        parts += [box(10, y - 13, 16, 16, kind), text(36, y, f"{count} {words}")]
    return picture(720, 110 + len(POOL) * 26, "What fills a client's pool in the worst case", parts)


def bars():
    """Returns the rows of docs/figures.json that are drawn: words, and nanoseconds a round trip."""
    told = json.loads((pathlib.Path(__file__).resolve().parent.parent / "figures.json").read_text())
    tables = [it for section in told["sections"] for it in section["tables"]]
    return [(words, dict(it["rows"])[row]) for it in tables for words, row in it.get("bars", {}).items()]


def times():
    """Returns the times of round trips as bars."""
    rows = bars()
    parts = [text(10, 26, "Nanoseconds a round trip, the best of all samples", "strong")]
    most = max(time for _, time in rows)
    for index, (words, time) in enumerate(rows):
        y = 48 + index * 30
        width = max(2, round(430 * time / most))
        parts += [text(200, y + 15, words, "", "end"), box(210, y, width, 20, "one"), text(218 + width, y + 15, f"{time:,}", "small")]
    return picture(720, 60 + len(rows) * 30, "Times of round trips through the ports", parts)


PICTURES = {"layers.svg": layers, "story.svg": story, "pool.svg": pool, "times.svg": times}


def main():
    here = pathlib.Path(__file__).resolve().parent
    if sys.argv[1:] != ["--check"]:
        for name, draw in PICTURES.items():
            (here / name).write_text(draw())
        return False
    failed = 0
    for name, draw in PICTURES.items():
        if not (here / name).exists() or (here / name).read_text() != draw():
            failed += 1
            print(f"docs/pictures/{name}: draw.py draws another one")
    print(f"{len(PICTURES) - failed} passed, {failed} failed")
    return failed > 0


sys.exit(main())
