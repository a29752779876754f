#!/usr/bin/env python3
"""Makes one static page of health reports, as `dirauth report` writes them.

usage: health_page.py REPORT.. > page.html
Each REPORT is a file with one report; a single - is standard input. The page has no scripts and loads nothing. Exit
status 2 where there is no report or one has a line that is none, which is told on standard error.
"""
import collections
import html
import re
import sys

IDENTITY = re.compile(r"[0-9A-F]{40}\Z")
TIME = re.compile(r"\d{4}-\d\d-\d\d \d\d:\d\d:\d\d\Z")

STYLE = """
:root { --ink: #1c2430; --soft: #5b6675; --line: #d9dee5; --page: #f6f7f9; --card: #fff;
  --good: #1d7a46; --goodbg: #e5f4eb; --warn: #8a5a00; --warnbg: #fdf1d6; --bad: #a8231c; --badbg: #fbe6e4; }
@media (prefers-color-scheme: dark) { :root { --ink: #e4e8ee; --soft: #9aa6b5; --line: #323b47; --page: #14181e;
  --card: #1c222b; --good: #7ad3a0; --goodbg: #16321f; --warn: #f0c25e; --warnbg: #3a2c0b; --bad: #ff9a90;
  --badbg: #43170f; } }
* { box-sizing: border-box; }
body { margin: 0; background: var(--page); color: var(--ink); font: 15px/1.5 system-ui, sans-serif; }
main { max-width: 76rem; margin: 0 auto; padding: 1.5rem 1rem 4rem; }
h1 { font-size: 1.5rem; margin: 0 0 .25rem; }
h2 { font-size: 1.15rem; margin: 2.2rem 0 .6rem; }
h3 { font-size: 1rem; margin: 1.4rem 0 .4rem; }
p { margin: .3rem 0; }
.soft { color: var(--soft); }
.scroll { overflow-x: auto; background: var(--card); border: 1px solid var(--line); border-radius: 8px; }
table { border-collapse: collapse; width: 100%; }
th, td { text-align: left; padding: .35rem .7rem; border-top: 1px solid var(--line); vertical-align: top; }
thead th { border-top: 0; font-weight: 600; color: var(--soft); font-size: .85rem; white-space: nowrap; }
td.n, th.n { text-align: right; font-variant-numeric: tabular-nums; }
code, .id { font: .86em/1.5 ui-monospace, "DejaVu Sans Mono", monospace; }
.dots { font: .95em/1.5 ui-monospace, "DejaVu Sans Mono", monospace; letter-spacing: .12em; white-space: nowrap; }
.tag { display: inline-block; padding: 0 .5em; border-radius: 1em; font-size: .85rem; white-space: nowrap; }
.good { color: var(--good); background: var(--goodbg); }
.warn { color: var(--warn); background: var(--warnbg); }
.bad { color: var(--bad); background: var(--badbg); }
.odd { color: var(--warn); font-weight: 600; }
.split { display: inline-block; margin: 0 1.1em .1rem 0; white-space: nowrap; }
.tiles { display: grid; grid-template-columns: repeat(auto-fill, minmax(10rem, 1fr)); gap: .6rem; margin: .6rem 0; }
.tile { background: var(--card); border: 1px solid var(--line); border-radius: 8px; padding: .5rem .8rem; }
.tile b { display: block; font-size: 1.35rem; font-variant-numeric: tabular-nums; }
details { margin: .6rem 0; }
summary { cursor: pointer; padding: .3rem 0; }
ol.list { columns: 26rem; margin: .4rem 0; padding-left: 3.2em; }
"""


class Report:
    """One report: who voted and signed, the params, and the relays with their flags."""

    def __init__(self):
        self.time, self.members, self.votes = None, 0, 0
        self.missing, self.signed, self.params = set(), {}, []
        self.relays, self.extra = [], []

    def voters(self):
        """The members whose votes are held, ascending."""
        return [member for member in self.signed if member not in self.missing]


Relay = collections.namedtuple("Relay", "identity listed voters flags")


def identities(words):
    if not words or not all(IDENTITY.match(word) for word in words):
        raise ValueError
    return words


def read_param(words):
    pairs = [pair.split("=") for pair in words[1:]]
    return words[0], {identities([who])[0]: int(value) for who, value in pairs}


def read_relay(words):
    if words[1] not in ("in", "out"):
        raise ValueError
    return Relay(identities(words[:1])[0], words[1] == "in", frozenset(identities(words[2:])), [])


def read_line(report, kind, words):
    if kind == "authorities":
        report.members = int(words[0])
    elif kind == "votes":
        report.votes = int(words[0])
    elif kind == "missing-vote":
        report.missing.add(*identities(words))
    elif kind in ("signer", "missing-signer"):
        report.signed[identities(words)[0]] = kind == "signer"
    elif kind == "param":
        report.params.append(read_param(words))
    elif kind == "relay":
        report.relays.append(read_relay(words))
    elif kind == "flag" and report.relays and report.relays[-1].identity == words[0]:
        report.relays[-1].flags.append((words[1], frozenset(identities(words[2:]))))
    elif kind == "extra":
        report.extra.append(identities(words)[0])
    else:
        raise ValueError


def read_first(report, line):
    report.time = line[len("report "):]
    if not line.startswith("report ") or not TIME.match(report.time):
        raise ValueError


def read(name):
    """The report in a file."""
    report = Report()
    with (sys.stdin if name == "-" else open(name, encoding="ascii")) as lines:
        for number, line in enumerate(lines, 1):
            line = line.rstrip("\n")
            try:
                if number == 1:
                    read_first(report, line)
                else:
                    kind, *words = line.split(" ")
                    read_line(report, kind, words)
            except (ValueError, IndexError, TypeError):
                raise SystemExit(f"{name}: line {number} is none of a report")
    if report.time is None or len(report.signed) != report.members:
        raise SystemExit(f"{name}: no whole report")
    return report


# ---- parts of the page


def short(identity):
    return f'<span class="id" title="{identity}">{identity[:8]}</span>'


def dots(some, listed, order):
    """Of each of an order whether it is among some: a full dot, an empty one, a small one where it has no say."""
    return "".join("●" if who in some else "○" if who in listed else "·" for who in order)


def table(heads, rows):
    """A table; a head is a text, and whether its column has numbers."""
    classes = [" class=n" if numbers else "" for _, numbers in heads]
    head = "".join(f"<th{kind}>{text}</th>" for kind, (text, _) in zip(classes, heads))
    lines = ("".join(f"<td{kind}>{cell}</td>" for kind, cell in zip(classes, row)) for row in rows)
    body = "".join(f"<tr>{line}</tr>\n" for line in lines)
    return f'<div class="scroll"><table><thead><tr>{head}</tr></thead><tbody>\n{body}</tbody></table></div>\n'


def folded(title, text):
    return f"<details><summary>{title}</summary>{text}</details>"


def listing(items):
    return "<ol class=list>\n" + "".join(f"<li>{item}</li>\n" for item in items) + "</ol>"


def duties(report, who):
    """What a member did in a period."""
    if who not in report.signed:
        return '<span class="soft">no member</span>'
    if who in report.missing:
        return '<span class="tag bad">no vote</span>'
    if report.signed[who]:
        return '<span class="tag good">voted, signed</span>'
    return '<span class="tag warn">voted, not signed</span>'


def authorities(reports):
    """Who did what in which period, those that missed most first."""
    def missed(who):
        return sum(who in report.signed and not report.signed[who] for report in reports)
    members = sorted({who for report in reports for who in report.signed})
    members.sort(key=lambda who: -missed(who))
    rows = [[short(who), *(duties(report, who) for report in reports), f"{missed(who)} of {len(reports)}"]
            for who in members]
    return table([("Authority", False), *((report.time, False) for report in reports), ("Missed", True)], rows)


def param_row(name, values, order):
    count = collections.Counter(values.values())
    common = max(count.values())
    cells = [f"<code>{html.escape(name)}</code>"]
    for who in order:
        value = values.get(who)
        odd = value is None or count[value] < common
        cells.append(f'<span class="{"odd" if odd else ""}">{"–" if value is None else value}</span>')
    return cells


def params(report, order):
    differ, agree = [], []
    for name, values in report.params:
        whole = len(values) == len(order) and len(set(values.values())) == 1
        (agree if whole else differ).append((name, values))
    text = "<p class=soft>All votes agree.</p>"
    if differ:
        heads = [("Param", False), *((short(who), True) for who in order)]
        text = table(heads, [param_row(name, values, order) for name, values in differ])
    if agree:
        rows = [[f"<code>{html.escape(name)}</code>", next(iter(values.values()))] for name, values in agree]
        text += folded(f"{len(agree)} on which all votes agree", table([("Param", False), ("Value", True)], rows))
    return text


def flags(report, order):
    """On how many relays the votes that list them differ over a flag, and how often each sets it."""
    split, agreed, by = collections.Counter(), collections.Counter(), collections.defaultdict(collections.Counter)
    for relay in report.relays:
        for flag, some in relay.flags:
            (agreed if some == relay.voters else split)[flag] += 1
            by[flag].update(some)
    names = sorted(by, key=lambda flag: (-split[flag], flag))
    rows = [[html.escape(flag), split[flag], agreed[flag], *(by[flag][who] for who in order)] for flag in names]
    heads = [("Flag", False), ("Split", True), ("Agreed", True), *((short(who), True) for who in order)]
    return table(heads, rows)


def splits(relay, voters):
    """Over how many things the votes differ at a relay."""
    return (relay.voters != voters) + sum(some != relay.voters for _, some in relay.flags)


def relay_row(relay, order):
    odd = "".join(
        f"<span class=split>{html.escape(flag)} <span class=dots>{dots(some, relay.voters, order)}</span></span>"
        for flag, some in relay.flags if some != relay.voters)
    even = " ".join(html.escape(flag) for flag, some in relay.flags if some == relay.voters)
    state = "<span class='tag good'>in</span>" if relay.listed else "<span class='tag bad'>out</span>"
    whole = len(relay.voters) == len(order)
    voters = f'<span class="dots{"" if whole else " odd"}">{dots(relay.voters, order, order)}</span>'
    return [f"<span class=id>{relay.identity}</span>", state, voters, odd or "–", f"<span class=soft>{even}</span>"]


def relays(report, order):
    """The relays on which the votes differ, and folded the others."""
    voters = set(order)
    split = [relay for relay in report.relays if splits(relay, voters)]
    agreed = [relay for relay in report.relays if not splits(relay, voters)]
    split.sort(key=lambda relay: (-splits(relay, voters), relay.identity))
    text = "<p class=soft>All votes agree on every relay.</p>"
    if split:
        heads = ["Relay", "Consensus", "Listed by", "Split flags", "Agreed flags"]
        text = table([(head, False) for head in heads], [relay_row(relay, order) for relay in split])
    if agreed:
        items = [f"<span class=id>{relay.identity}</span>" + ("" if relay.listed else " <span class=bad>out</span>")
                 for relay in agreed]
        text += folded(f"{len(agreed)} relays on which all votes agree", listing(items))
    return text, len(split)


def tiles(report, split):
    values = [
        (f"votes of {report.members}", report.votes),
        ("signers", sum(report.signed.values())),
        ("relays in some vote", len(report.relays)),
        ("of these not in the consensus", sum(not relay.listed for relay in report.relays)),
        ("relays with a split", split),
        ("in the consensus alone", len(report.extra)),
    ]
    cells = "".join(f'<div class="tile"><b>{value}</b><span class="soft">{name}</span></div>' for name, value in values)
    return f'<div class="tiles">{cells}</div>'


def period(report):
    order = report.voters()
    rows, split = relays(report, order)
    names = " ".join(f'<span class="split">{number} {short(who)}</span>' for number, who in enumerate(order, 1))
    text = f"<h2>{report.time}</h2>{tiles(report, split)}"
    text += f'<p class="soft">Votes, in the order of the dots (● yes, ○ no, · does not list the relay): {names}</p>'
    text += f"<h3>Params that differ</h3>{params(report, order)}"
    text += f"<h3>Flags, the most split first</h3>{flags(report, order)}"
    text += f"<h3>Relays, the most split first</h3>{rows}"
    if report.extra:
        text += "<h3>In the consensus, and in no vote that is held</h3>"
        text += listing(f"<span class=id>{identity}</span>" for identity in report.extra)
    return text


def page(reports):
    count = f'{len(reports)} {"period" if len(reports) == 1 else "periods"}'
    periods = "".join(period(report) for report in reversed(reports))
    return f"""<!DOCTYPE html>
<html lang="en"><head><meta charset="utf-8"><meta name="viewport" content="width=device-width, initial-scale=1">
<title>Directory authorities, {reports[-1].time}</title><style>{STYLE}</style></head><body><main>
<h1>Directory authorities</h1><p class="soft">{count}, the last valid from {reports[-1].time}</p>
<h2>Authorities by period</h2>{authorities(reports)}{periods}
</main></body></html>
"""


def main():
    names = sys.argv[1:]
    if not names or any(name.startswith("--") for name in names):
        print(__doc__.strip(), file=sys.stderr)
        return 2
    try:
        reports = sorted((read(name) for name in names), key=lambda report: report.time)
    except OSError as error:
        print(f"{error.filename}: {error.strerror}", file=sys.stderr)
        return 2
    except (SystemExit, UnicodeDecodeError) as error:
        print(error, file=sys.stderr)
        return 2
    sys.stdout.reconfigure(encoding="utf-8")
    sys.stdout.write(page(reports))
    return 0


if __name__ == "__main__":
    sys.exit(main())
