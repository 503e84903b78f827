"""What a browser is shown: the figures as a page. Nothing on it is taken as HTML, and nothing on it runs. The doors call it."""
import time
from html import escape

STYLE = (
    "body{font-family:sans-serif;margin:2em}td,th{padding:.2em 1.2em .2em .3em;text-align:left;vertical-align:top}td{overflow-wrap:anywhere}"
    ".bad{background:#fbd5d5;font-weight:bold}.warn{background:#fdf0c8}.good{background:#d9f2dd}"
    ".datanodes td{overflow-wrap:normal}"
    "@media(max-width:40em){body{margin:.7em}td,th{padding-right:.5em}ul{padding-left:1.2em}.datanodes{font-size:.85em}}"
)
# A telephone shows the page as wide as it is itself.
HEAD = '<!doctype html><html lang="en"><head><meta charset="utf-8"><meta name="viewport" content="width=device-width,initial-scale=1">'
SILENT_SECONDS, ANSWER_SECONDS = 60, 10


def page(figures: dict) -> bytes:
    told = "".join(f"<li>{time_of(ago)} {escape(text)}</li>" for ago, text in reversed(figures["told"]))
    rows = "".join(row(*it) for it in (*of_service(figures), *of_program(figures)))
    now = time.strftime("%Y-%m-%d %H:%M:%S UTC", time.gmtime())
    return (
        f'{HEAD}<meta http-equiv="refresh" content="5">'
        f"<title>Standby: {escape(figures['state'])}</title><style>{STYLE}</style></head><body><h1>Standby NameNode</h1><p>{now}</p>"
        f"<table>{rows}</table><h2>DataNodes</h2><table class=datanodes>"
        "<tr><th>DataNode</th><th>messages</th><th>held</th><th>heard</th><th>full report</th></tr>"
        f"{''.join(map(datanode, figures.get('datanodes', [])))}</table><h2>Told last</h2><ul>{told}</ul></body></html>\n"
    ).encode()


def form() -> bytes:
    """What a browser is asked for that has not shown the token."""
    return (
        f"{HEAD}<title>Standby</title><style>{STYLE}</style></head><body><h1>Standby NameNode</h1>"
        '<form method="post" action="/enter"><label>Token <input type="password" name="token"></label> <button>Look</button></form></body></html>\n'
    ).encode()


def of_service(figures):
    """Each row: its title, its text, and whether it is `good`, to `warn` of or `bad`."""
    since = figures["seconds"]
    stop = figures.get("stopped")
    state = figures["state"] + (f", fault {stop['fault']} at TXID {stop['txid']}" if stop else "")
    yield "State", state, "good" if figures["state"] in ("standby", "active") else "bad"
    yield "Health", figures["ill"] or "good", "bad" if figures["ill"] else "good"
    yield "TXID", f"{figures['txid']:,}, of {figures['known']:,} that were seen", ""
    lag = f"{figures['lag']:,} transactions" + (f", for {spell(since['behind'])}" if figures["lag"] and since["behind"] is not None else "")
    yield "Lag", lag, "warn" if figures["lag"] else "good"
    yield "The log waits", figures["waits"] or "no", "bad" if figures["waits"] else ""
    yield "Last answer of the program", f"{spell(since['answer'])} ago", "bad" if since["answer"] > ANSWER_SECONDS else ""
    yield "Last new segment", f"{spell(since['segment'])} ago", ""
    yield folder(figures)
    written = f", {spell(since['checkpoint'])} ago" if since["checkpoint"] is not None else ""
    failed = figures["failures"].get("checkpoint", 0)
    last = f"TXID {figures['checkpoint']:,}{written}" if figures["checkpoint"] or written else "none yet"
    yield "Last checkpoint", last + (f"; {failed:,} failed" if failed else ""), "warn" if failed else ""
    promotion = figures["promotion"]
    if promotion:
        count = len(promotion["given_up"])
        given = f", {count:,} segment{'s' * (count != 1)} given up" if count else ""
        yield "Last promotion", f"TXID {promotion['txid']:,}, epoch {promotion['epoch']:,}{given}", ""
    yield "Epoch", f"{figures['epoch']:,}", ""
    yield "Started", f"{time_of(since['up'])}, version {figures.get('version', 'not known yet')}, instance {figures['instance']}", ""


def folder(figures):
    """When it was looked at. Who is active follows it no more."""
    look = figures["seconds"]["look"]
    text = f"{spell(look)} ago"
    if figures["state"] != "standby":
        return "Last look at the folder", text, ""
    if figures["folder"]:
        return "Last look at the folder", f"{text}; it can't be read: {figures['folder']}", "bad"
    return "Last look at the folder", text, "warn" if look > SILENT_SECONDS else ""


def of_program(figures):
    if "blocks" not in figures:
        return
    blocks, missing = figures["blocks"], figures["missing"]
    yield "Safe mode", "on" if figures["safe_mode"] else "off", "warn" if figures["safe_mode"] else ""
    yield "Blocks", f"{blocks['total']:,}, safe {blocks['safe']:,}, needed {blocks['needed']:,}", ""
    spread = f"under-replicated {figures['under_replicated']:,}, over-replicated {figures['over_replicated']:,}"
    yield "Missing", f"{missing:,}, {spread}", "bad" if missing else "warn" if figures["under_replicated"] else ""
    yield "Held", f"{figures['held']:,}", ""
    if figures["left_out"]:
        yield "Left out", figures["left_out"], "warn"


def row(title, text, kind):
    return f"<tr><td>{escape(title)}</td><td{f' class={kind}' if kind else ''}>{escape(text)}</td></tr>"


def datanode(it):
    heard = "not heard" if it["silent_seconds"] is None else f"{spell(it['silent_seconds'])} ago"
    kind = "bad" if it["gone"] else "warn" if it["full_report"] != "taken" else ""
    cells = (str(it["datanode"]), f"{it['messages']:,}", f"{it['held']:,}", f"gone, {heard}" if it["gone"] else heard, it["full_report"])
    return f"<tr{f' class={kind}' if kind else ''}>{''.join(f'<td>{escape(cell)}</td>' for cell in cells)}</tr>"


def spell(seconds):
    """A time in words that are read at a glance."""
    if seconds < 120:
        return f"{seconds:.0f} s"
    return f"{seconds / 60:.0f} min" if seconds < 7200 else f"{seconds / 3600:.1f} h"


def time_of(ago):
    return time.strftime("%Y-%m-%d %H:%M:%S", time.gmtime(time.time() - ago))
