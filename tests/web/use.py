"""Works with narbeddo.html in Chromium as a user does: by keys, clicks and files. What the page shows is compared with what the built
program prints of the same files."""
import json
import re
import time

from harness import HEADING, PLATE, TOP, call, scratch, script

from . import search, writing
from .page import Fault, Page, at_files, browser, missing, run_words  # noqa: F401
from .pictures import take

# the most milliseconds for going to a scan of 20,000, on a machine with nothing else to do
FLUENT = 300
WIDTHS = (360, 520, 760, 900, 1100, 1400)
EXAMPLES = ("filling", "weighbridge", "checkweigher", "batch", "change")
HOSTILE = "<img src=x onerror=window.hacked=1><script>window.hacked=1</script>"
COUNTING = "PROGRAM Count\nVAR n : DINT; b : BOOL; END_VAR\nLD n\nADD 1\nST n\nGE 3\nST b\nLD %ID1\nST %QD0\nEND_PROGRAM\n"


# --- trials: each gives what is wrong

def start_faults(page, folder):
    page.load()
    version = page.asked(folder, "--version").stdout.partition(" ")[2]
    shown = page.script("return document.getElementById('identity').textContent")
    if not shown.startswith("narbeddo " + version):
        yield f"the page names {shown!r}, the program {version!r}"
    if "trusted" not in page.script("return document.getElementById('trust_text').textContent"):
        yield "the page does not say what is trusted"


def check_faults(page, folder):
    """A faulty program: the messages are the program's own, and so is the page of its number."""
    faulty = "PROGRAM P\nVAR a : BOOL; END_VAR\nLD a\nADD 1\nST %QX0.0\nEND_PROGRAM\n"
    warned = "PROGRAM P\nVAR x, y : DINT; END_VAR\nLD 1\nST x\nST %QD0\nST %QD0\nEND_PROGRAM\n"
    for text in (faulty, warned, "PROGRAM P\nLD 10.0\nEND_PROGRAM\n", f"PROGRAM P\n(* {HOSTILE} *)\nLD {HOSTILE}\nEND_PROGRAM\n"):
        page.write("program", text)
        at_files(folder, {"program.il": text})
        objects = [json.loads(line) for line in page.asked(folder, "check", "--message", "json", "program.il").stderr.splitlines()]
        shown = page.text("messages_program")
        for it in objects:
            for part in (it["sentence"], it["hint"]):
                if " ".join(part.split()) not in " ".join(shown.split()):
                    yield f"of {text!r} the page shows {shown!r}, and not {part!r}"
        if not objects:
            yield f"the program says nothing of {text!r}"
            continue
        marks = page.script("return document.querySelectorAll('#editor_program .sign').length")
        if not marks:
            yield f"no line of {text!r} is marked"
        page.driver.find_element("css selector", "#messages_program li button.small").click()
        page.settle()
        number = ("W" if "severity" in objects[0] else "") + str(objects[0]["number"])
        if page.script("return document.querySelector('#messages_program pre').textContent") != page.asked(folder, "explain", number).stdout:
            yield f"the page of {number} is not that of the program"
    if "refused" not in page.text("stale"):
        yield f"a refused program does not mark the run as an earlier one: {page.text('stale')!r}"


def bound_faults(page, folder):
    page.choose("filling")
    at_files(folder, {"program.il": page.written("program")})
    printed = page.asked(folder, "check", "--path", "program.il").stdout
    cost = re.findall(r"cost (\d+)", printed)[-1]
    if f"at most {cost} instructions" not in page.text("messages_program"):
        yield f"the bound {cost} is not shown: {page.text('messages_program')!r}"
    path = {int(line) for row in re.findall(r"(?m)^path (.*)$", printed) for line in row.split()}
    marked = page.script("const mirror = document.querySelector('#editor_program .CodeMirror').CodeMirror; return [...Array(mirror.lineCount()).keys()].filter(at => mirror.lineInfo(at).gutterMarkers?.['gutter-path']).map(at => at + 1)")
    if set(marked) != path:
        yield f"the margin marks {marked} and the path is {sorted(path)}"


def example_faults(page, folder, name):
    """The scans of an example: values, outputs, lines as the program prints them; and the focus stays while the cursor moves."""
    page.choose(name)
    if name == "filling":
        page.open("log")
        page.one("by_log").click()
        page.write("log", (TOP / "examples" / name / "log.csv").read_text())
    at_files(folder, {f"{it}.il": page.written(it) for it in ("program", "next") if page.written(it)} | {"plate.toml": page.written("plate"), "log.csv": page.written("log")})
    for file in ("plate.toml", "program.il", "log.csv"):
        if (folder / file).read_text() != (TOP / "examples" / name / file).read_text():
            yield f"{name}: {file} in the page is another one"
    words = run_words(folder)
    traced = [json.loads(line) for line in page.asked(folder, "trace", *words, "--message", "json").stdout.splitlines()][:-1]
    page.go(0)
    names = [it for it in page.values() if it not in ("gross", "net", "tare")]
    watched = [dict(word.split("=", 1) for word in line.split()[2:]) for line in page.asked(folder, "run", *words, "--watch", ",".join(names)).stdout.splitlines() if line.startswith("V ")]
    for index, (trace, values) in enumerate(zip(traced, watched, strict=True)):
        page.go(index)
        page.settle(0.15)
        if f"scan {index + 1} at " not in page.text("where") or f"{trace['steps']} of at most {trace['bound']} " not in page.text("where"):
            yield f"{name}: scan {index + 1}: {page.text('where')}"
        shown = {key: value for key, value in page.values().items() if key in values}
        if shown != values:
            yield f"{name}: scan {index + 1}: values {shown} for {values}"
        bits = page.bits()
        expected = {f"%IX0.{bit}": trace["inputs"] >> bit & 1 for bit in range(16)} | {f"%IX1.{bit}": trace["status"] >> bit & 1 for bit in range(6)} | {f"%QX0.{bit}": trace["outputs"] >> bit & 1 for bit in range(16)}
        if bits != {key: bool(value) for key, value in expected.items()}:
            yield f"{name}: scan {index + 1}: bits {bits}"
        if set(page.lines()) != {item["line"] for item in trace["items"]}:
            yield f"{name}: scan {index + 1}: lines {sorted(page.lines())}"
        if page.script("return document.activeElement.id") != "plot":
            yield f"{name}: the focus is on {page.script('return document.activeElement.outerHTML')[:100]}"
    decoded = call([page.program, "decode"], input="".join(line + "\n" for line in page.asked(folder, "run", *words).stdout.splitlines() if line.startswith("L ")), text=True).stdout
    for line in decoded.splitlines():
        if re.sub(r"^L \d+ +", "", line) not in page.text("host"):
            yield f"{name}: the answer {line!r} is not shown"


def scenario_faults(page, folder):
    """A scenario is drawn and typed; its log is the one of tools/make_log, and it runs."""
    from selenium.webdriver import ActionChains
    page.choose("filling")
    page.open("scenario")
    before = page.written("scenario")
    canvas = page.one("sketch")
    size = canvas.size
    chain = ActionChains(page.driver).move_to_element_with_offset(canvas, -size["width"] // 6, size["height"] // 4).click_and_hold()
    for step in range(8):
        chain = chain.move_by_offset(12, -6)
    chain.release().perform()
    page.settle()
    drawn = page.written("scenario")
    if drawn == before or "weight from" not in drawn:
        yield f"drawing gives no line: {drawn!r}"
    maker = script("tools/make_log")
    for text in (drawn, "until 3 s\nat 1 s weight 1.5 kg\nat 2 s request W Z\nfrom 1 to 2 s input 3 on\n"):
        page.write("scenario", text)
        plate = maker.tomllib.loads(page.written("plate"))
        if page.written("log") != maker.make_log(text, plate):
            yield f"the log of the page is not that of tools/make_log for {text!r}"
        if "scans" not in page.text("outcome"):
            yield f"the scenario does not run: {page.text('outcome')}"
    page.write("scenario", "at 1 s weight 1.5 stone\n")
    if "line 1" not in page.text("messages_scenario") or "stone" not in page.text("messages_scenario"):
        yield f"a mistake of a scenario: {page.text('messages_scenario')!r}"
    for label in ("+ step", "+ slope", "+ button", "+ input on", "+ request", "+ end"):
        page.write("scenario", "until 5 s\n")
        page.driver.find_element("xpath", f"//button[text()='{label}']").click()
        page.settle()
        if page.text("messages_scenario"):
            yield f"the button {label} writes what is refused: {page.text('messages_scenario')}"


def plate_faults(page, folder):
    """The fields of the plate change its text where it is, offer what is allowed, and the program says the rest."""
    page.choose("first")
    page.open("plate")
    page.write("plate", '# ours\nunit = "kg"  # mass\n' + PLATE.partition("\n")[2])
    fields = page.driver.find_elements("css selector", "#plate_form select, #plate_form input")
    offered = page.script("return [...document.querySelectorAll('#plate_form select')].map(list => [...list.options].map(it => it.value))")
    if offered != [["g", "kg", "t"], ["0", "1", "2", "3"], ["5", "10", "20", "50"]]:
        yield f"the fields offer {offered}"
    page.script("const field = arguments[0]; field.value = '15001'; field.dispatchEvent(new Event('change'))", fields[3])
    page.settle()
    text = page.written("plate")
    if "max = 15001\n" not in text or "# mass" not in text:
        yield f"the field of Max writes {text!r}"
    (folder / "plate.toml").write_text(text)
    (folder / "log.csv").write_text(HEADING)
    said = page.asked(folder, "line", "--message", "json", "--plate", "plate.toml", "--log", "log.csv").stderr
    if json.loads(said)["sentence"] not in page.text("messages_plate"):
        yield f"the plate is refused by {page.text('messages_plate')!r}, and the program says {said}"


def files_faults(page, folder):
    """Files in any order are what they are; saved ones are what the program prints."""
    change = TOP / "examples" / "change"
    page.choose("first")
    page.files(change / "next.il", change / "log.csv", change / "program.il", change / "plate.toml")
    for tab, file in (("program", "program.il"), ("next", "next.il"), ("plate", "plate.toml"), ("log", "log.csv")):
        if page.written(tab) != (change / file).read_text():
            yield f"{file} of examples/change is not in its tab"
    preview = call([page.program, "check", "--next", change / "next.il", change / "program.il"], text=True).stdout
    shown = page.script("return document.getElementById('preview').textContent")
    for line in preview.splitlines():
        if line.split()[0] in ("kept", "first", "lost") and line.split()[1] not in shown:
            yield f"the preview lacks {line}"
    words = ["--plate", change / "plate.toml", "--program", change / "program.il", "--next", change / "next.il", "--log", change / "log.csv"]
    expected = {"log.csv": (change / "log.csv").read_text(), "picture.svg": page.asked(folder, "show", *words).stdout, "report.txt": page.asked(folder, "run", *words).stdout,
                "trace.jsonl": page.asked(folder, "trace", *words, "--message", "json").stdout}
    for name, content in expected.items():
        if page.saves(folder, name) != content.encode():
            yield f"the saved {name} is another one"
    job = TOP / "examples" / "first" / "job.txt"
    page.files(job)
    if page.written("program") not in job.read_text() or "S " not in page.asked(folder, input=job.read_text()).stdout or page.written("plate") not in job.read_text():
        yield "a job is not taken apart"


def trace_faults(page, folder):
    """A saved trace: whole, cut, from a moment on, of another program; with an edited program it is shown next to that."""
    example = TOP / "examples" / "filling"
    words = ["--plate", example / "plate.toml", "--program", example / "program.il", "--log", example / "log.csv", "--message", "json"]
    whole = page.asked(folder, "trace", *words).stdout
    late = page.asked(folder, "trace", *words, "--from", "3000").stdout
    page.choose("filling")
    for name, text, expected in (("whole.jsonl", whole, "10 scans"), ("late.jsonl", late, "5 of 10 scans"), ("cut.jsonl", whole[: len(whole) * 2 // 3], "is cut"), ("refused.jsonl", whole.rpartition('{"scans"')[0] + "refused 603 9\n", "refused 603")):
        (folder / name).write_text(text)
        page.files(folder / name)
        said = page.text("outcome") + page.text("stale")
        if expected not in said:
            yield f"{name}: the page says {said!r}"
        if set(page.values()) & {"fills.count", "settling.ET"}:
            yield f"{name}: the page shows values that the trace does not have"
        last = [json.loads(line) for line in text.splitlines() if line.startswith('{"scan":') and line.endswith("}")][-1]
        page.go(10**6)
        page.settle()
        if f"scan {last['scan']} at" not in page.text("where") or page.lines().keys() != {item["line"] for item in last["items"]}:
            yield f"{name}: the last scan is {page.text('where')}, not {last['scan']}"
    if "not of the program" in page.text("stale"):
        yield f"the trace is said to be of another program: {page.text('stale')}"
    other = example.parent / "first" / "program.il"
    page.files(other, folder / "whole.jsonl")
    if "not of the program" not in page.text("stale"):
        yield f"a trace of another program is shown without a word: {page.text('stale')!r}"


def compare_faults(page, folder):
    """Two runs next to one another: the scans that differ are those of the two reports."""
    page.choose("filling")
    page.one("keep_before").click()
    old = page.written("program")
    new = old.replace("target : DINT := 1000;", "target : DINT := 600;")
    reports = []
    for text in (old, new):
        at_files(folder, {"program.il": text, "plate.toml": page.written("plate"), "log.csv": page.written("log")})
        reports.append([line.split() for line in page.asked(folder, "run", *run_words(folder), "--watch", "%QX0.0,%QX0.1,%QD1,reached,still,target,settling.ET,settling.IN,settling.Q,fills.count,fills.done,fills.edges.CU,fills.edges.Q,fills.edges.CV").stdout.splitlines() if line.startswith("V ")])
    page.write("program", new)
    differing = [index for index, (one, other) in enumerate(zip(*reports, strict=True)) if one != other]
    if f"{len(differing)} of {len(reports[0])} scans differ" not in page.text("compared"):
        yield f"{len(differing)} scans differ, and the page says {page.text('compared')!r}"
    switched = next(index for index, (one, other) in enumerate(zip(*reports, strict=True)) if one[2] != other[2])
    page.go(switched)
    page.settle()
    if not page.script("return document.querySelectorAll('#values .differs').length"):
        yield "no value is marked as differing"
    if "before" not in page.text("values"):
        yield "the values of before have no column"
    page.one("drop_before").click()


FILLING = """PROGRAM Fill
VAR
    filling : BOOL;
END_VAR
    LD %IX0.0           (* the start button *)
    S filling
    LD %ID1             (* net, in grams *)
    LT 10000
    R filling
    LD filling
    AND %IX1.5
    ST %QX0.1           (* the fine valve *)
END_PROGRAM
"""
FILLED = "samples every 20 ms\nscans every 50 ms\nat 0.2 s request Z\nfrom 0.5 to 0.8 s input 0 on\nfrom 0.6 to 4 s weight from 0 to 10.02 kg\nat 6.5 s request W\nuntil 7 s\n"


def walk_faults(page, folder):
    """From nothing to a filling program: a planted error is found by the search and the lines of the scan, and mended."""
    page.choose("empty")
    page.write("program", FILLING)
    page.write("scenario", FILLED)
    page.open("program")
    page.go(0)
    page.find("%IX0.0")
    wrote = page.script("return [...document.querySelectorAll('#lines tbody tr.ran')].map(row => row.children[3].textContent)")
    if "filling := TRUE" not in wrote or "filling := FALSE" not in wrote:
        yield f"the lines of the scan write {wrote}"
    page.one("keep_before").click()
    page.write("program", FILLING.replace("LT 10000", "GE 10000"))
    page.one("next_difference").click()
    page.settle(0.3)
    if not re.fullmatch(r"at [\d.]+ m?s: filling: TRUE, before FALSE(, and \d+ more)?", page.text("compared")):
        yield f"after the error was mended: {page.text('compared')!r}"
    page.one("lines_before").click()
    page.settle(0.3)
    if page.lines().get(8) != "TRUE" or "LT 10000" not in page.text("lines") or "in the run before" not in page.text("lines"):
        yield f"the lines of the run before: {page.lines()}"
    page.one("lines_before").click()
    page.go(0)
    if "scan" not in page.find("%QX0.1") or page.find("%QX0.1") == page.find("%QX0.1", back=True):
        yield "the valve does not open and close"
    page.one("drop_before").click()


DROP = """
const [texts] = arguments, data = new DataTransfer();
for (const [name, text] of Object.entries(texts)) data.items.add(new File([text], name));
document.body.dispatchEvent(new DragEvent("dragover", { dataTransfer: data, bubbles: true, cancelable: true }));
document.body.dispatchEvent(new DragEvent("drop", { dataTransfer: data, bubbles: true, cancelable: true }));
"""


def drop_faults(page, folder):
    """Files that are dropped, whatever their order and names."""
    first = TOP / "examples" / "first"
    files = {"z.csv": (first / "log.csv").read_text(), "b.toml": (first / "plate.toml").read_text(), "a.txt": (first / "program.il").read_text()}
    page.choose("batch")
    page.script(DROP, files)
    page.settle()
    if [page.written(tab) for tab in ("log", "plate", "program")] != list(files.values()):
        yield f"the dropped files are not in their tabs: {page.text('said')}"
    if page.script("return document.body.classList.contains('dropping')"):
        yield "the page still waits for files"


def long_faults(page, folder):
    """20,000 scans: going to one is fast, and the last values are those of the program."""
    rows = "".join(f"{ms},C,{10000 + ms * 20}\n{ms},S,\n" for ms in range(20000))
    at_files(folder, {"plate.toml": PLATE, "program.il": COUNTING, "log.csv": HEADING + rows})
    started = time.monotonic()
    page.files(folder / "plate.toml", folder / "program.il", folder / "log.csv")
    page.until(lambda: "20000 scans" in page.text("outcome"), "20,000 scans are not run", 120)
    ran = time.monotonic() - started
    from selenium.webdriver.common.keys import Keys
    page.script("document.getElementById('plot').focus()")
    slowest = 0
    for key in (Keys.END, Keys.HOME, Keys.PAGE_DOWN, Keys.ARROW_RIGHT, Keys.END):
        pressed = time.monotonic()
        page.press(key)
        slowest = max(slowest, time.monotonic() - pressed)
    if page.values()["n"] != "20000":
        yield f"the last scan of 20,000 has n = {page.values()['n']}"
    where = page.find("b")
    page.go(0)
    where = page.find("n >= 19000")
    if "scan 19000 " not in where:
        yield f"n >= 19000 is found at {where}"
    print(f"try_web: 20,000 scans are run and shown in {ran:.1f} s, a key takes at most {slowest * 1000:.0f} ms")
    if slowest * 1000 > 10 * FLUENT:
        yield f"a key takes {slowest * 1000:.0f} ms"


def hostile_faults(page, folder):
    """Names and texts of others are shown as texts."""
    name = folder / "<img src=x onerror=window.hacked=1>.il"
    name.write_text(f"PROGRAM P\n(* {HOSTILE} \u202e *)\nLD %IX0.0\nST %QX0.0\nEND_PROGRAM\n")
    page.files(name)
    page.write("scenario", f"at 1 s weight {HOSTILE}\n")
    page.write("plate", f"unit = \"{HOSTILE}\"\n")
    page.write("log", f"ms,kind,data\n0,S,\n1,{HOSTILE},\n")
    page.find(HOSTILE)
    if page.script("return window.hacked") or page.script("return document.querySelectorAll('main img, main script, header img').length"):
        yield "a text of others became an element"


SIBLINGS = """
const found = [];
const visible = [...document.querySelectorAll('header > *, main > section > *, #scan_box > *, #run_row > *, #search > *, #compare_row > *, #zoom_row > *, #tabs > *')]
  .filter(it => it.getClientRects().length && getComputedStyle(it).position !== 'absolute');
for (const one of visible) for (const other of visible) {
  if (one === other || one.parentElement !== other.parentElement) continue;
  const a = one.getBoundingClientRect(), b = other.getBoundingClientRect();
  if (a.width && b.width && a.left < b.right - 1 && b.left < a.right - 1 && a.top < b.bottom - 1 && b.top < a.bottom - 1) found.push((one.id || one.outerHTML.slice(0, 60)) + ' / ' + (other.id || other.outerHTML.slice(0, 60)));
}
const wide = document.documentElement.scrollWidth - innerWidth;
return [found, wide > 0 ? wide : 0];
"""


def narrow_faults(page, folder):
    """At each width, and at 200 %, nothing lies over another thing, and nothing is wider than the window."""
    page.choose("filling")
    for width, scale in [*((width, 1) for width in WIDTHS), (700, 2)]:
        page.driver.execute_cdp_cmd("Emulation.setDeviceMetricsOverride", {"width": width, "height": 900, "deviceScaleFactor": scale, "mobile": False})
        time.sleep(0.4)
        for tab in ("program", "plate", "scenario"):
            page.open(tab)
            over, wide = page.script(SIBLINGS)
            if over or wide:
                yield f"at {width} pixels, {tab}: {over[:3]} over one another, {wide} pixels too wide"
    page.driver.execute_cdp_cmd("Emulation.clearDeviceMetricsOverride", {})


def names_faults(page, folder):
    """Each control has a name for a screen reader."""
    page.driver.execute_cdp_cmd("Accessibility.enable", {})
    for tab in ("program", "plate", "scenario", "log", "next"):
        page.open(tab)
        for node in page.driver.execute_cdp_cmd("Accessibility.getFullAXTree", {})["nodes"]:
            role = node.get("role", {}).get("value")
            if role in ("button", "textbox", "checkbox", "combobox", "slider", "tab", "radio", "searchbox", "spinbutton", "link", "meter", "image") and not node.get("ignored"):
                if not node.get("name", {}).get("value", "").strip():
                    yield f"{tab}: a {role} has no name: {node}"


def keys_faults(page, folder):
    """The page by keys alone: out of the editor by Tab, to a tab, to the search, a run."""
    from selenium.webdriver.common.keys import Keys
    page.choose("filling")
    page.open("program")
    page.driver.find_element("css selector", "#editor_program .CodeMirror-code").click()
    page.press(Keys.TAB)
    if page.script("return Boolean(document.activeElement.closest('.CodeMirror'))"):
        yield "Tab does not lead out of the editor"
    page.chord(Keys.ALT, "3")
    if page.script("return document.activeElement.id") != "tab_scenario" or page.one("panel_scenario").get_attribute("hidden"):
        yield "Alt+3 does not lead to the scenario"
    page.press(Keys.ARROW_LEFT)
    if page.script("return document.activeElement.id") != "tab_plate":
        yield "an arrow does not lead to the next tab"
    page.press("/")
    if page.script("return document.activeElement.id") != "what":
        yield "/ does not lead to the search"
    page.chord(Keys.CONTROL, Keys.ENTER)
    page.settle()
    if page.script("return document.activeElement.id") != "what":
        yield "a run takes the focus away"
    for jump in page.driver.find_elements("css selector", "#values tr[data-name='fills.count'] button"):
        page.go(0)
        page.script("arguments[0].focus()", jump)
        page.press(Keys.ENTER)
        page.settle()
        if not page.script("return document.activeElement === arguments[0]", jump):
            yield "a jump to a change takes the focus away"


def kept_faults(page, folder):
    """What was typed is there after the page was loaded again."""
    text = COUNTING.replace("GE 3", "GE 4")
    page.write("program", text)
    page.load()
    if page.written("program") != text:
        yield "what was typed is not kept"


def paper_faults(page, folder):
    """The run on paper: the program's picture, what happened, the identity; and that it is some pages of PDF."""
    page.choose("weighbridge")
    page.until(lambda: "Identity" in page.script("return document.getElementById('paper').textContent"), "nothing is made for paper")
    time.sleep(1)
    text = page.script("return document.getElementById('paper').textContent")
    for part in ("What happened", "the host sends", "kg net", "legal part sha256", "SHA-256 of the files", "%QX0"):
        if part not in text:
            yield f"the paper lacks {part!r}"
    if not page.script("return document.querySelector('#paper img')?.src.startsWith('blob:')"):
        yield "the paper has no picture"
    if len(page.driver.execute_cdp_cmd("Page.printToPDF", {})["data"]) < 20000:
        yield "the PDF is empty"


def network_faults(page, folder):
    """What the page asked for since it was started, and what its policy lets it ask for."""
    for row in page.driver.get_log("performance"):
        event = json.loads(row["message"])["message"]
        if event["method"] == "Network.requestWillBeSent":
            address = event["params"]["request"]["url"]
            if not address.startswith(("file:", "blob:", "data:", "chrome:")):
                yield f"the page asks for {address[:200]}"
    tried = page.driver.execute_async_script("const done = arguments[0]; fetch('https://example.org/').then(() => done('asked'), error => done('refused')); ")
    if tried != "refused":
        yield "the policy lets the page ask the network"
    policy = page.script("return document.querySelector('meta[http-equiv]').content")
    if "unsafe-inline" in policy or "'unsafe-eval'" in policy or not policy.startswith("default-src 'none'"):
        yield f"the policy is {policy}"


def lacking_faults(page, folder):
    """A browser without 64-bit memory: the first line says so, and what to use."""
    found = page.driver.execute_cdp_cmd("Page.addScriptToEvaluateOnNewDocument", {"source": "WebAssembly.validate = () => false"})
    page.driver.get(page.address)
    time.sleep(1)
    first = page.script("return document.body.innerText.split('\\n')[0]")
    if "64-bit memory" not in first or "133" not in first:
        yield f"the first line is {first!r}"
    page.driver.execute_cdp_cmd("Page.removeScriptToEvaluateOnNewDocument", {"identifier": found["identifier"]})


TRIALS = (
    start_faults, check_faults, bound_faults, *search.TRIALS, scenario_faults, plate_faults, files_faults, *writing.TRIALS, trace_faults, compare_faults, walk_faults, drop_faults, keys_faults, names_faults,
    narrow_faults, kept_faults, paper_faults, long_faults, hostile_faults, network_faults, lacking_faults,
)


def tried(trial, page, folder, *more):
    from selenium.common.exceptions import WebDriverException
    try:
        yield from (f"{trial.__name__}: {fault}" for fault in trial(page, folder, *more))
    except (Fault, WebDriverException) as fault:
        yield f"{trial.__name__}: {str(fault).partition(chr(10))[0][:500]}"
        page.load()


def faults(address, program, counts, only=""):
    """The faults of all trials, or of those whose names have a text, in one browser from an empty profile."""
    found, counts["trials"] = [], 0
    with scratch() as top:
        driver = browser(top)
        try:
            page = Page(driver, address.as_uri(), program)
            chosen = [it for it in TRIALS[1:] if only in it.__name__]
            for trial, *more in [(TRIALS[0],), *((example_faults, name) for name in EXAMPLES if only in "example"), *((it,) for it in chosen)]:
                started = time.monotonic()
                with scratch() as folder:
                    driver.execute_cdp_cmd("Browser.setDownloadBehavior", {"behavior": "allow", "downloadPath": str(folder)})
                    found += tried(trial, page, folder, *more)
                counts["trials"] += 1
                print(f"try_web: {trial.__name__.removesuffix('_faults')} {' '.join(more)} {time.monotonic() - started:.0f} s", flush=True)
            found += [f"the page: {row['message'][:300]}" for row in driver.get_log("browser") if row["level"] == "SEVERE" and "example.org" not in row["message"]]
        finally:
            driver.quit()
    return found


def pictures(address, folder):
    """Writes pictures of the page into a folder."""
    folder.mkdir(parents=True, exist_ok=True)
    with scratch() as top:
        driver = browser(top)
        try:
            page = Page(driver, address.as_uri(), None)
            page.load()
            take(page, folder)
        finally:
            driver.quit()
