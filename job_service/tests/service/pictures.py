"""The picture and the page: what they show, and that a browser and a reader of XML take them."""

import json
import os
import re
import shutil
import subprocess
import xml.etree.ElementTree as tree

from house import Checks, House, soon

BROWSERS = (os.environ.get("CHROMIUM", "chromium"), "google-chrome")
SVG = "{http://www.w3.org/2000/svg}"


def drawn(program: str) -> Checks:
    """Of five jobs, one of which fails, and one runs."""
    with House(program) as house:
        yield "it serves", house.serve()
        for name in ("a", "b-</script>".replace("</script>", "x"), "c"):
            house.add(name, "true")
        house.add("bad", "exit 3")
        house.add("long", "sleep 60")
        yield "they end", soon(lambda: house.is_over("a", "b-x", "c", "bad")) and soon(lambda: house.state_of("long") == "runs")
        house.run("draw", "--output", "picture.svg")
        titles = [title.text for title in tree.parse(house.folder / "picture.svg").iter(f"{SVG}title")]
        yield f"each run has a bar: {titles}", len(titles) == 5 and sum(": failed 3 in " in title for title in titles) == 1
        yield "one runs", sum(": runs, from " in title for title in titles) == 1
        house.run("draw", "--page", "--output", "page.html")
        page = (house.folder / "page.html").read_text()
        data = json.loads(re.search(r"^const data = (\{.*\});$", page, re.MULTILINE)[1])
        yield "the page has each run", sorted(data["names"][run[0]] for run in data["runs"]) == ["a", "b-x", "bad", "c", "long"]
        yield "it needs nothing else", not re.search(r"(?:src|href)\s*=|https?://|url\(", page)
        yield from in_a_browser(house)
        yield "it stops", house.ask("stop", how="end") is not None and house.status() == 0


def in_a_browser(house: House) -> Checks:
    """Headless Chromium runs the page: what it lists are the failures, and with a job named its runs."""
    browser = next((name for name in BROWSERS if shutil.which(name)), None)
    if browser is None:
        print("no Chromium: the page is not shown")
        return
    words = [browser, "--headless", "--no-sandbox", "--disable-gpu", f"--user-data-dir={house.folder}/profile"]
    words += ["--virtual-time-budget=2000", "--dump-dom"]
    for part, rows, count in [
        ("", ["bad"], "5 runs, 1 failed"), ("#failures", ["bad"], "1 runs, 1 failed"), ("#job=a", ["a"], "1 runs, 0 failed"),
    ]:
        page = (house.folder / "page.html").as_uri() + part
        shown = subprocess.run([*words, page], capture_output=True, text=True, timeout=120)
        found = re.findall(r"<tr[^>]*><td>[^<]*</td><td>([^<]*)</td>", shown.stdout)
        yield f"page{part}: {found}", found == rows and f">{count}</span>" in shown.stdout


TESTS = [drawn]
