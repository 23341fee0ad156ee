"""Trials of narbeddo.html: what its user finds. The search with units, captions, times and numbers of scans; lamps with their jumps and lanes; a
run that is kept; what answers mean; and that no text lies over another."""
import re
import time

from harness import TOP

from .page import Fault, at_files, run_words

# each text that is drawn into a canvas, with its box: asked for again and again while the page draws
RECORD = """
const [id, wide] = arguments, found = [], pen = CanvasRenderingContext2D.prototype, kept = pen.fillText, canvas = document.getElementById(id);
pen.fillText = function (text, x, y, most) {
  if (this.canvas.id === id) {
    const width = Math.min(this.measureText(text).width, most ?? Infinity), left = x - width * { left: 0, center: 0.5, right: 1 }[this.textAlign];
    found.push([text, left, left + width, y]);
  }
  kept.apply(this, arguments);
};
canvas.style.maxWidth = `${wide}px`;
setTimeout(() => { pen.fillText = kept; canvas.style.maxWidth = ""; arguments[2](found); }, 400);
"""


def drawn(page, canvas, wide):
    """The texts of a canvas of some width: [text, left, right, y]."""
    found = page.driver.execute_async_script(RECORD, canvas, wide)
    if not found:
        raise Fault(f"nothing is drawn in {canvas}")
    return found


def lies_over(texts):
    """Texts of one row of which one lies over the other."""
    return [(one[0], other[0]) for place, one in enumerate(texts) for other in texts[:place]
            if abs(one[3] - other[3]) < 11 and one[1] < other[2] - 1 and other[1] < one[2] - 1 and one != other]


def scans_of(page, folder, names):
    """The values of names after each scan, as the built program prints them, with the time as `ms`."""
    at_files(folder, {f"{it}.il": page.written(it) for it in ("program", "next") if page.written(it).strip()} | {"plate.toml": page.written("plate"), "log.csv": page.written("log")})
    rows = page.asked(folder, "run", *run_words(folder), "--watch", ",".join(names)).stdout.splitlines()
    return [dict(word.split("=", 1) for word in row.split()[2:]) | {"ms": int(row.split()[1])} for row in rows if row.startswith("V ")]


def number_of(scans, is_so):
    """The number of the first scan from the second on in which something becomes so."""
    return next(at + 1 for at in range(1, len(scans)) if is_so(scans[at]) and not is_so(scans[at - 1]))


def search_faults(page, folder):
    """The search by name, by a comparison, by a line, by an answer; the hit is in view, and the cursor is there."""
    page.choose("filling")
    at_files(folder, {"program.il": page.written("program"), "plate.toml": page.written("plate"), "log.csv": page.written("log")})
    scans = [dict(word.split("=", 1) for word in line.split()[2:]) | {"ms": int(line.split()[1])} for line in
             page.asked(folder, "run", *run_words(folder), "--watch", "fills.count,settling.Q,settling.ET,%ID1").stdout.splitlines() if line.startswith("V ")]

    def first(is_so, back=False):
        return next(index + 1 for index in (range(len(scans) - 1, 0, -1) if back else range(1, len(scans))) if is_so(scans[index], scans[index - 1]))

    tries = [
        ("fills.count", first(lambda now, past: now["fills.count"] != past["fills.count"])), ("SETTLING.q", first(lambda now, past: now["settling.Q"] != past["settling.Q"])),
        ("settling.ET >= T#500ms", first(lambda now, past: int(now["settling.ET"][2:-2]) >= 500 > int(past["settling.ET"][2:-2]))),
        ("net > 900", first(lambda now, past: int(now["%ID1"]) > 900 >= int(past["%ID1"]))), ("%QX0.0 = TRUE", None), ("22", 2),
    ]
    for text, number in tries:
        page.go(0)
        where = page.find(text)
        if number and f"scan {number} at " not in where:
            yield f"{text} finds {where}, and not scan {number}: {page.text('found')}"
        if "found at" not in page.text("found"):
            yield f"{text} finds nothing: {page.text('found')}"
        hit = page.script("const row = document.querySelector('.hit'); if (!row) return null; const box = row.closest('.pane').getBoundingClientRect(), its = row.getBoundingClientRect(); return its.top >= box.top - 1 && its.bottom <= box.bottom + 1 && its.bottom > 0 && its.top < innerHeight")
        if not hit:
            yield f"the hit of {text} is not in view"
    page.go(0)
    page.find("“net”")
    if "found at" not in page.text("found") or not page.script("return document.querySelector('#host .hit')"):
        yield f"an answer is not found: {page.text('found')}"
    if "no such" not in page.find("such") and "no such" not in page.text("found"):
        yield f"an unknown name: {page.text('found')!r}"
    lines = page.written("program").rstrip("\n").count("\n") + 1
    for text, back, part in (("fills.count", False, "none after the cursor"), ("fills.count", False, "Previous goes to"), ("“net”", True, "none before the cursor: Next goes to"), ("net > 100 kg", False, "nowhere in this run"),
                             (str(lines + 1), False, f"the last one is {lines}"), (str(lines), False, f"line {lines} runs in no scan"), ("-5 s", False, "the first scan is at 0 ms")):
        page.go(0 if back else 10**6)
        page.find(text, back)
        if part not in page.text("found"):
            yield f"{text} finds {page.text('found')!r}, and not {part!r}"
    page.go(10**6)
    page.find("fills.count", back=True)
    if f"scan {first(lambda now, past: now['fills.count'] != past['fills.count'], back=True)} at " not in page.text("where"):
        yield f"the search back finds {page.text('where')}"


def unit_faults(page, folder):
    """Weights with a unit, addresses, captions, times and numbers of scans lead where the program has them."""
    page.choose("filling")
    scans = scans_of(page, folder, ["%ID0", "%ID1", "%IX1.4", "%IX1.0", "%QX0.1", "settling.ET"])
    heavy = lambda name, least: number_of(scans, lambda it: int(it[name]) > least)
    on = lambda name: number_of(scans, lambda it: it[name] == "TRUE")
    late = next(at for at, it in enumerate(scans) if it["ms"] > 2500)
    tries = {
        "net > 0.9 kg": heavy("%ID1", 900), "gross > 1 kg": heavy("%ID0", 1000), "%ID1 > 900": heavy("%ID1", 900), "id0 > 0.0005 t": heavy("%ID0", 500), "net > 900 g": heavy("%ID1", 900), "net > 0,9 kg": heavy("%ID1", 900),
        "tare active": on("%IX1.4"), "QX0.1": on("%QX0.1"), "%q0.1 = true": on("%QX0.1"), "settling.ET >= 0.5 s": number_of(scans, lambda it: int(it["settling.ET"][2:-2]) >= 500),
        "scan 77": 77, "2.5 s": late, "2500 ms": late, "T#2s500ms": late,
    }
    for text, number in tries.items():
        page.go(0)
        if f"scan {number} at " not in page.find(text):
            yield f"{text} finds {page.text('where')}, and not scan {number}: {page.text('found')}"
    sentences = {
        "net > 1 lb": "write a number with g, kg or t", "net = 1.5 g": "no net is 1.5 g", "fills.count > 1 kg": "without a unit", "settling.ET > 1 kg": "is a TIME", "fils.count": "did you mean fills.count?",
        "stabel": "did you mean stable?", "scan 1000": "the last one is 141", "2 min": "the last scan is at 7 s", "%QX0.0 > 3": "compare it with TRUE or FALSE",
    }
    page.find("fills.count")
    for text, part in sentences.items():
        where = page.text("where")
        if page.find(text) != where or part not in page.text("found"):
            yield f"{text} leads to {page.text('where')}, and the page says {page.text('found')!r}"
        if page.script("return document.querySelectorAll('#scan_box .hit').length"):
            yield f"the mark of an earlier search is left by {text}"


def lamp_faults(page, folder):
    """A lamp leads to its changes, and has a lane if its user wants one."""
    from selenium.webdriver.common.keys import Keys
    page.choose("filling")
    scans = scans_of(page, folder, ["%IX1.0", "%IX0.0", "%QX0.1", "%IX1.4"])
    lamp = lambda name: page.driver.find_element("css selector", f"#values .bit[title^='{name} is']")
    for name in ("%IX1.0", "%IX0.0", "%QX0.1", "%IX1.4"):
        page.go(0)
        lamp(name).click()
        page.driver.find_element("css selector", f"#values button[aria-label='the next change of {name}']").click()
        page.settle(0.3)
        number = next(at + 1 for at in range(1, len(scans)) if scans[at][name] != scans[at - 1][name])
        if f"scan {number} at " not in page.text("where"):
            yield f"the next change of {name} is at {page.text('where')}, and not in scan {number}"
    page.press(Keys.TAB, Keys.SPACE)
    if "%IX1.4" not in [it[0] for it in drawn(page, "plot", 600)]:
        yield "the box after the jumps gives a lamp no lane"
    page.press(Keys.SPACE)
    lamp("%QX0.0").click()
    page.press(Keys.ARROW_RIGHT, Keys.ARROW_RIGHT)
    if page.script("return document.activeElement.title").split(" ")[0] != "%QX0.2":
        yield "arrows do not lead from lamp to lamp"
    page.driver.find_element("css selector", "#values input[aria-label='a lane for %QX0.2']").click()
    names = [it[0] for it in drawn(page, "plot", 600)]
    if "%QX0.2" not in names or "%IX1.4" in names:
        yield f"the lanes are {names}"
    lamp("%QX0.2").click()
    page.driver.find_element("css selector", "#values input[aria-label='a lane for %QX0.2']").click()


def kept_run_faults(page, folder):
    """A run that is kept stays so when an example is chosen, until it is forgotten."""
    page.choose("filling")
    page.one("keep_before").click()
    page.choose("checkweigher")
    if "Filling" not in page.text("compared") or not page.one("drop_before").is_displayed():
        yield f"the run that was kept is forgotten: {page.text('compared')!r}"
    page.choose("weighbridge")
    if "another unit" not in page.text("compared"):
        yield f"a run on a plate of another unit is compared without a word: {page.text('compared')!r}"
    if "··· before" in [it[0] for it in drawn(page, "plot", 600)]:
        yield "weights of another unit are drawn on the axis"
    page.one("drop_before").click()
    if page.text("compared"):
        yield f"the run before is not forgotten: {page.text('compared')!r}"
    page.choose("filling")
    page.one("keep_before").click()
    page.write("program", page.written("program").replace("%QX0.1", "%QX0.9"))
    names = [it[0] for it in drawn(page, "plot", 600)]
    if not {"%QX0.1", "%QX0.9"} <= set(names):
        yield f"an output that changes in one of two runs has no lane: {names}"
    page.one("drop_before").click()


def meaning_faults(page, folder):
    """What answers mean is next to what `decode` writes of them: in the list, in the report in words, and on paper with unit and program."""
    page.choose("weighbridge")
    at_files(folder, {"report.txt": page.asked(TOP / "examples" / "weighbridge", "run", "--plate", "plate.toml", "--program", "program.il", "--log", "log.csv").stdout})
    decoded = [re.sub(r"^L \d+ +", "", line) for line in page.asked(folder, "decode", input=(folder / "report.txt").read_text()).stdout.splitlines() if line.startswith("L ")]
    meanings = ["zero is set; a weight at rest", "the tare is not set: the weight is in motion", "the tare is set; a weight at rest", "a weight at rest", "the value of the tare", "no valid weight: the load is above the range", "the tare is cleared; no valid weight: the load is above the range"]
    saved = (page.saves(folder, "report_in_words.txt") or b"").decode()
    page.until(lambda: "Identity" in page.script("return document.getElementById('paper').textContent"), "nothing is made for paper")
    time.sleep(1)
    paper = page.script("return document.getElementById('paper').textContent")
    for answer, meaning in zip(decoded, meanings, strict=True):
        for where, text, parts in (("the list", " ".join(page.text("host").split()), (answer, meaning)), ("the report", saved, (f"{answer} – {meaning}",)), ("the paper", paper, (f"{answer} – {meaning}",))):
            yield from (f"{where} does not say {part!r}" for part in parts if part not in text)
    for part in ("Program Weighbridge on a scale of 60000 kg in steps of 20 kg; weights in kg", "output %QX0.0 switches on", "a tare is active", "the scale is over its range"):
        yield from (f"{where} does not say {part!r}" for where, text in (("the report", saved), ("the paper", paper)) if part not in text)


def overlap_faults(page, folder):
    """Boxes of menus are within the window; texts of pictures and signs at the margin do not lie over one another; nothing jumps while one types."""
    for width in (1400, 900, 420):
        page.driver.execute_cdp_cmd("Emulation.setDeviceMetricsOverride", {"width": width, "height": 900, "deviceScaleFactor": 1, "mobile": False})
        for menu in page.driver.find_elements("css selector", ".menu > summary"):
            menu.click()
            time.sleep(0.2)
            left, right, over = page.script("const box = document.querySelector('.menu[open] > .box').getBoundingClientRect(); return [box.left, box.right, document.documentElement.scrollWidth - document.documentElement.clientWidth]")
            if left < 0 or right > width or over > 0:
                yield f"at {width} pixels the box of {menu.text} goes from {left} to {right}"
            menu.click()
    page.driver.execute_cdp_cmd("Emulation.clearDeviceMetricsOverride", {})
    page.choose("filling")
    page.write("scenario", page.written("scenario") + "from 1 to 6 s request W every 50 ms\n" + "".join(f"from {at} to {at + 1} ms input {at % 16} on\n" for at in range(2000, 2400, 40)))
    for canvas in ("plot", "sketch"):
        if over := lies_over(drawn(page, canvas, 500)):
            yield f"in {canvas} {over[:4]} lie over one another"
    page.choose("filling")
    page.open("program")
    place = lambda: page.script("return [document.getElementById('plot'), document.getElementById('language_help')].map(it => it.getBoundingClientRect().top + scrollY)")
    before = place()
    page.write("program", page.written("program").replace("LD %ID1", "LD %ID1\n    LD x y"))
    if place() != before or "refused" not in page.text("stale"):
        yield f"an error moves the curves and the language in short from {before} to {place()}"
    page.write("program", "PROGRAM P\nVAR x, y, z : DINT; END_VAR\nLD 1\nST %QD0\nEND_PROGRAM\n")
    signs = page.script("return [...document.querySelectorAll('#editor_program .sign')].map(it => [it.textContent, it.title])")
    messages = len(page.driver.find_elements("css selector", "#messages_program li"))
    if sum(len(title.split("\n")) for _, title in signs) != messages:
        yield f"{messages} messages have the signs {signs}"


TRIALS = (search_faults, unit_faults, lamp_faults, kept_run_faults, meaning_faults, overlap_faults)
