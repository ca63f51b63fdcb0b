#!/usr/bin/env python3
"""Makes the pages of protocols, holds each against page_writer.py, opens it in a browser, and looks for what is fetched,
for texts that overlap, and for texts that a chart cuts off.

    checks/pages.py [FILE.bspl ..]

Each file (examples/*.bspl) is taken with the protocol of the file's name. The page is opened in headless Chromium, 1100
and 500 pixels wide, and on paper. A copy of it, into which a script is put here, lists what the browser fetched, the
boxes of all texts that overlap by more than a pixel, and the texts of charts that are not inside of their picture. A
line for each page: its status, bytes, and milliseconds of `bspl_more page` and of `bspl verify --brief` (the least of RUNS,
5). What is wrong is said, and the status is 1. If PICTURES names a folder, it gets a picture of each page, light and
dark, the page on paper, and each chart as a drawing of its own, as in docs/pictures. BSPL and BSPL_MORE name the
programs (crates/bspl/out/bspl, crates/bspl_more/out/bspl_more), CHROMIUM the browser (chromium).
"""
import html
import json
import os
import re
import subprocess
import sys
import tempfile
from html.parser import HTMLParser
from pathlib import Path

import page_writer

sys.path.insert(0, str(Path(__file__).resolve().parent.parent / "bench"))
from measure import TOP, least, program  # noqa: E402

BSPL, MORE = program("bspl"), program("bspl_more")
CHROMIUM = os.environ.get("CHROMIUM", "chromium")
PICTURES = os.environ.get("PICTURES")
RUNS = int(os.environ.get("RUNS", "5"))
VOID = {"meta"}
SCRIPT = """<script>
addEventListener('load', () => {
  const boxes = [];
  const walk = document.createTreeWalker(document.body, NodeFilter.SHOW_TEXT);
  while (walk.nextNode()) {
    const node = walk.currentNode;
    if (!node.data.trim() || node.parentElement.closest('script')) continue;
    const range = document.createRange();
    range.selectNodeContents(node);
    for (const r of range.getClientRects()) boxes.push({l: r.left, t: r.top, r: r.right, b: r.bottom, s: node.data.trim()});
  }
  boxes.sort((a, b) => a.t - b.t);
  const overlaps = [];
  boxes.forEach((a, i) => {
    for (let j = i + 1; j < boxes.length && boxes[j].t < a.b - 4; j++) {
      const b = boxes[j];
      if (Math.min(a.r, b.r) - Math.max(a.l, b.l) > 1 && Math.min(a.b, b.b) - b.t > 4) overlaps.push([a.s, b.s]);
    }
  });
  const outside = [...document.querySelectorAll('svg text')].filter(t => {
    const a = t.getBoundingClientRect(), b = t.ownerSVGElement.getBoundingClientRect();
    return a.left < b.left || a.right > b.right || a.top < b.top || a.bottom > b.bottom;
  }).map(t => t.textContent);
  const fetched = performance.getEntriesByType('resource').map(e => e.name);
  document.body.textContent = 'FOUND' + JSON.stringify({overlaps, outside, fetched, texts: boxes.length}) + 'END';
});
</script>"""


class Nesting(HTMLParser):
    """Whether each tag that begins ends, in order."""

    def __init__(self):
        super().__init__()
        self.open, self.wrong = [], []

    def handle_starttag(self, tag, attributes):
        if tag not in VOID:
            self.open.append(tag)
        if tag == "script" or any(name.startswith("on") or name == "src" for name, _ in attributes):
            self.wrong.append(f"<{tag}>")

    def handle_endtag(self, tag):
        if tag not in VOID and (not self.open or self.open.pop() != tag):
            self.wrong.append(f"</{tag}>")


def browse(*args):
    return subprocess.run(
        [CHROMIUM, "--headless=new", "--no-sandbox", "--disable-gpu", "--hide-scrollbars", *args], capture_output=True
    )


def seen(page, folder, width):
    """What the browser fetched for the page, and the texts that overlap in it or leave their chart."""
    copy = Path(folder) / "copy.html"
    copy.write_bytes(page.replace(b"</head>", SCRIPT.encode() + b"</head>", 1))
    dom = browse(f"--window-size={width},1000", "--virtual-time-budget=10000", "--dump-dom", f"file://{copy}").stdout
    found = re.search(rb"<body>FOUND(.*)END</body>", dom, re.S)
    if not found:
        return {"overlaps": [], "outside": [], "fetched": ["the browser answered nothing"], "texts": 0}
    return json.loads(found[1].decode().replace("&lt;", "<").replace("&gt;", ">").replace("&amp;", "&"))


def pictures(name, page, folder):
    """Pictures of the page, light and dark, and the page on paper."""
    whole = Path(folder) / f"{name}.html"
    whole.write_bytes(page)
    target = Path(PICTURES) / name
    for suffix, more in ("light", []), ("dark", ["--blink-settings=preferredColorScheme=0"]):
        browse(*more, "--window-size=1100,1400", f"--screenshot={target}-{suffix}.png", f"file://{whole}")
    browse("--no-pdf-header-footer", f"--print-to-pdf={target}.pdf", f"file://{whole}")


def run_of(given):
    """The lines of the events of the run that the input gives, if it gives one."""
    part = re.search(r"^%% run\r?\nrun 1\n(.*)end\n\Z", given.decode("latin-1"), re.M | re.S)
    return part and part[1].splitlines()


def is_legal(name, given, events):
    """Whether `bspl replay` finds the run legal that has these lines."""
    run = "".join(f"{line}\n" for line in ["%% run", "run 1", *events, "end"])
    text = re.split(rb"^%% ", given, maxsplit=1, flags=re.M)[0] + run.encode()
    return subprocess.run([BSPL, "replay", name], input=text, capture_output=True).stdout.startswith(b"legal")


def drawings(name, page):
    """Each chart of the page as a file of its own, in light colours."""
    start = b'<svg xmlns="http://www.w3.org/2000/svg" class="chart" style="--paper:#fff;background:#fff;color:#1b1f24" '
    for number, found in enumerate(re.finditer(rb"<svg (role=.*?</svg>\n)", page, re.S), 1):
        (Path(PICTURES) / f"{name}-{number}.svg").write_bytes(start + found[1])


def wrongs_of(name, given, folder):
    """A line for the page is printed; what is wrong with it is returned."""
    ran = least([MORE, "page", name], given, by="seconds", runs=RUNS)
    verdict = least([BSPL, "verify", name, "--brief", "--conflicts", "10000"], given, by="seconds", runs=RUNS)
    took, verified = ran.seconds * 1000, verdict.seconds * 1000
    print(f"{name:24} status {ran.status} bytes {len(ran.out):7} ms {took:6.1f} verify {verified:6.1f}", flush=True)
    wrong = [] if ran.status == verdict.status else [f"verify ends with {verdict.status}"]
    if ran.status == 4:
        return wrong + ([] if ran.out == verdict.out else [f"refused as {ran.out!r}"])
    asked = lambda *args: subprocess.run([BSPL, *args], input=given, capture_output=True).stdout.decode()
    dead = asked("dead", name, "--brief", "--conflicts", "10000")
    part = re.search(rb"^%% (\w+)", given, re.M)
    plays = part and part[1] == b"agents"
    played = asked("run", name, "--threads", "0", "--brief", "--conflicts", "10000") if plays else None
    world = plays and re.search(rb"^<h2>World: events</h2>\n.*?^<pre>run 1\n(.*?)end\n</pre>", ran.out, re.M | re.S)
    events = world and html.unescape(world[1].decode()).splitlines()
    all_rules = [MORE, "ask", name, "--all", "--brief", "--conflicts", "10000"]
    rules = subprocess.run(all_rules, input=given, capture_output=True).stdout.decode()
    shown = run_of(given), asked("replay", name), played, events, rules
    if events is not None and not is_legal(name, given, events):
        wrong.append("the run of the world is not legal")
    if ran.out.decode() != page_writer.page(asked("expand", name), verdict.out.decode(), dead, *shown):
        wrong.append("page_writer.py writes another page")
    nesting = Nesting()
    nesting.feed(ran.out.decode("ascii"))
    wrong += nesting.wrong + nesting.open
    for width in (1100, 500):
        found = seen(ran.out, folder, width)
        wrong += [f"fetched {one}" for one in found["fetched"]]
        wrong += [f"{width} wide: {one!r} over {other!r}" for one, other in found["overlaps"][:3]]
        wrong += [f"{width} wide: {one!r} leaves its chart" for one in found["outside"][:3]]
    if PICTURES:
        pictures(name, ran.out, folder)
        drawings(name, ran.out)
    return wrong


def main():
    paths = [Path(name) for name in sys.argv[1:]] or sorted((TOP / "examples").glob("*.bspl"))
    failed = False
    with tempfile.TemporaryDirectory() as folder:
        for path in paths:
            for wrong in wrongs_of(path.stem, path.read_bytes(), folder):
                print(f"  {path.stem}: {wrong}", flush=True)
                failed = True
    sys.exit(failed)


if __name__ == "__main__":
    main()
