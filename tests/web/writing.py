"""Trials of narbeddo.html: what its user writes is not lost. The log and its scenario, files that would replace what is not saved, what is saved and of
what it is, and curves that are drawn over others."""
import json
import re

from harness import TOP, script

from .page import at_files, run_words

EXAMPLES = TOP / "examples"
# chooses that the log is typed, and is in its editor at once
TYPED_AT_ONCE = """
const mirror = document.querySelector("#editor_log .CodeMirror").CodeMirror;
document.getElementById("by_log").click();
mirror.focus();
mirror.execCommand("selectAll");
"""


def log_faults(page, folder):
    """A log is typed as soon as that is chosen, and it is not lost when the scenario has its turn."""
    log = (EXAMPLES / "filling" / "log.csv").read_text()
    page.choose("filling")
    made = page.written("log")
    page.open("log")
    page.script(TYPED_AT_ONCE)
    page.driver.execute_cdp_cmd("Input.insertText", {"text": log + "6000,S,\n"})
    page.settle()
    if page.written("log") != log + "6000,S,\n" or "11 scans" not in page.text("outcome"):
        yield f"a log that is typed at once is not taken: {page.text('outcome')}"
    page.open("scenario")
    page.one("by_scenario").click()
    page.settle()
    if page.written("log") != made or "given way" not in page.text("said"):
        yield f"the log gives way to the scenario without a word: {page.text('said')!r}"
    page.driver.find_element("xpath", "//span[@id='said']/button").click()
    page.settle()
    if page.written("log") != log + "6000,S,\n" or not page.one("by_log").is_selected():
        yield "the log that was typed is not brought back"


def question_faults(page, folder):
    """A file does not take the place of what is not saved without a question; a file that is nothing of the page's is refused by its name."""
    from selenium.webdriver.common.keys import Keys
    first, mine = EXAMPLES / "first", "PROGRAM Mine\n    LD %IX0.1\n    ST %QX0.1\nEND_PROGRAM\n"
    page.choose("filling")
    if question := page.files(first / "program.il"):
        yield f"an example that nobody changed asks {question!r}"
    page.write("program", mine)
    for leave in (Keys.ESCAPE, Keys.TAB + Keys.TAB + Keys.ENTER):
        question = page.files(first / "program.il", first / "log.csv", answer="")
        page.press(leave)
        page.settle()
        if "the program" not in question or page.written("program") != mine or "nothing is opened" not in page.text("said"):
            yield f"a question that is left with {leave!r}: {question!r}, then {page.text('said')!r}"
    page.files(EXAMPLES / "batch" / "program.il", EXAMPLES / "batch" / "plate.toml", answer="Keep mine")
    if page.written("program") != mine or page.written("plate") != (EXAMPLES / "batch" / "plate.toml").read_text():
        yield f"with `Keep mine` the program is {page.written('program')!r}"
    page.files(first / "program.il")
    if page.written("program") != (first / "program.il").read_text():
        yield "with `Replace` the program is not that of the file"
    page.driver.find_element("xpath", "//span[@id='said']/button").click()
    page.settle()
    if page.written("program") != mine:
        yield "what was replaced is not brought back"
    others = {"noise.il": bytes(range(256)), "drawing.svg": b"<svg xmlns='http://www.w3.org/2000/svg'>\n<!--\nPROGRAM\n--></svg>\n", "table.csv": b"a;b\n1;2\n", "Cargo.toml": b"[package]\nname = \"a\"\n", "letter.txt": b"Dear all,\nthe scale is here.\n"}
    for name, content in others.items():
        (folder / name).write_bytes(content)
        question = page.files(folder / name)
        if question or f"{name} is not opened" not in page.text("said") or page.written("program") != mine:
            yield f"{name}: {question!r} {page.text('said')!r}"
    (folder / "windows.il").write_bytes("PROGRAM P\r\n(* F\u00fcller *)\r\n    LD TRUE\r\n    ST %QX0.0\r\nEND_PROGRAM\r\n".encode("cp1252"))
    page.files(folder / "windows.il")
    if "F\u00fcller" not in page.written("program") or "not UTF-8" not in page.text("said"):
        yield f"a file with letters of Windows: {page.text('said')!r}"
    if page.saves(folder, "program.il") != "PROGRAM P\r\n(* F\u00fcller *)\r\n    LD TRUE\r\n    ST %QX0.0\r\nEND_PROGRAM\r\n".encode():
        yield "a saved text has other ends of lines than its file"


def example_faults(page, folder):
    """An example does not take the place of what is not saved without a question; a job that is opened alone leaves no scenario of before."""
    mine = "PROGRAM Mine\n    LD %IX0.1\n    ST %QX0.1\nEND_PROGRAM\n"
    page.choose("filling")
    if question := page.choose("batch"):
        yield f"an example that nobody changed asks {question!r}"
    page.write("program", mine)
    question = page.choose("filling", answer="Cancel")
    if "the program" not in question or page.written("program") != mine:
        yield f"an example replaces what is not saved: {question!r}"
    page.choose("filling")
    if page.written("program") != (EXAMPLES / "filling" / "program.il").read_text():
        yield "with `Replace` the program is not that of the example"
    page.files(EXAMPLES / "first" / "job.txt")
    if page.written("scenario") or not page.one("by_log").is_selected() or "scans" not in page.text("outcome"):
        yield f"a job leaves the scenario {page.written('scenario')!r}: {page.text('outcome')}"


def remark_faults(page, folder):
    """Lines after the end and weights within a slope have a remark, and the scenario still runs; a comma in a number is explained."""
    page.choose("filling")
    page.write("scenario", "from 1 to 3 s weight from 0 to 1 kg\nat 2 s weight 2 kg\nat 7 s input 0 on\nfrom 8 to 9 s request W every 100 ms\nuntil 6 s\n")
    said = page.text("messages_scenario")
    for part in ("within the slope of line 1", "begins after the end, which is at 6000 ms"):
        if part not in said:
            yield f"the page says {said!r}, and not {part!r}"
    if said.count("after the end") != 2 or page.text("stale") or "scans" not in page.text("outcome"):
        yield f"remarks: {said!r}, {page.text('stale')!r}, {page.text('outcome')!r}"
    page.write("scenario", "at 2,5 s weight 2 kg\n")
    if "write a point, `2.5`" not in page.text("messages_scenario"):
        yield f"a comma: {page.text('messages_scenario')!r}"
    page.write("scenario", "at 1 s weight 1 kg\nuntil 9 s\n")
    for label, line in (("+ button", "from 1 to 1.3 s input 0 on"), ("+ request", "at 2 s request W"), ("+ input on", "at 2 s input 0 on")):
        page.driver.find_element("xpath", f"//button[text()='{label}']").click()
        page.settle()
        if page.written("scenario").rstrip("\n").split("\n")[-1] != line:
            yield f"{label} writes {page.written('scenario')!r}"


def saved_faults(page, folder):
    """A scenario with a mistake marks the run below it, and there is no log or job of it; a job is the run."""
    page.choose("filling")
    good = page.written("scenario")
    page.write("scenario", good.replace("noise 1 g", "noise 1 pound"))
    if "the scenario is refused: below is the run of the texts before" not in page.text("stale") or not page.script("return document.body.classList.contains('stale')"):
        yield f"a scenario with a mistake does not mark the run: {page.text('stale')!r}"
    for name in ("log.csv", "job.txt"):
        if page.saves(folder, name) is not None or "the scenario makes no log: line 4" not in page.text("said"):
            yield f"{name} of a scenario with a mistake: {page.text('said')!r}"
    if page.saves(folder, "picture.svg") is None or "of the texts before" not in page.text("said"):
        yield f"the picture of a run before: {page.text('said')!r}"
    page.write("scenario", good)
    if page.text("stale"):
        yield f"a mended scenario leaves {page.text('stale')!r}"
    if page.saves(folder, "next.il") is not None:
        yield "a next program is saved that is not there"
    page.write("program", page.written("program").rstrip("\n"))
    at_files(folder, {"program.il": page.written("program"), "plate.toml": page.written("plate"), "log.csv": page.written("log")})
    job = page.saves(folder, "job.txt")
    if job is None or page.asked(folder, input=job.decode()).stdout != page.asked(folder, "run", *run_words(folder)).stdout:
        yield f"the saved job is not the run: {page.text('said')!r}"
    page.write("program", page.written("program") + "\n(*\n@log\n*)\n")
    if page.saves(folder, "job.txt") is not None or "heading" not in page.text("said"):
        yield f"a job with a heading in its program: {page.text('said')!r}"


def samples(log):
    """The counts of a log, by their times."""
    return {int(ms): int(counts) for ms, counts in re.findall(r"(?m)^(\d+),C,(-?\d+)$", log)}


def drawn_faults(page, folder):
    """A curve that is drawn over another replaces what it covers and no more; what it replaced is said, and comes back."""
    from selenium.webdriver import ActionChains
    maker = script("tools/make_log")
    texts = ("samples every 20 ms\nfrom 0 to 6 s weight from 0 to 6000 g\nuntil 7 s\n", "at 0.5 s weight 85 g # the bag\nfrom 1.6 to 3.65 s weight from 85 to 1087 g\nfrom 3.7 to 3.8 s weight from 0 to 7 g\nat 6 s weight 0 g\nuntil 7 s\n")
    for before in texts:
        page.choose("filling")
        page.write("scenario", before)
        old, canvas = samples(page.written("log")), page.one("sketch")
        ActionChains(page.driver).move_to_element_with_offset(canvas, -canvas.size["width"] // 6, 20).click_and_hold().move_by_offset(60, -25).move_by_offset(60, 10).release().perform()
        page.settle()
        now, said = page.written("scenario"), page.text("said")
        rows = [row for row in now.splitlines() if row not in before.splitlines()]
        spans = [tuple(map(int, re.match(r"from (\d+) to (\d+) ms", row).groups())) for row in rows]
        begin, end = spans[0][0], next(stop for place, (_, stop) in enumerate(spans) if [it[0] for it in spans[place + 1:place + 2]] != [stop] or "goes on" in said and place == len(spans) - 2)
        new = samples(page.written("log"))
        alone = samples(maker.make_log("samples every 20 ms\n" + "".join(f"{row}\n" for row, span in zip(rows, spans, strict=True) if span[1] <= end) + "until 7 s\n", maker.tomllib.loads(page.written("plate"))))
        step = 20 if "20 ms" in before else 10
        for ms in range(0, 7001, step):
            expected = alone.get(ms, new[ms]) if begin <= ms < end else old[ms] if ms < begin or "goes on" in said or ms >= 6000 else None
            if expected is not None and abs(new[ms] - expected) > 1:
                yield f"drawn over {before!r}: at {ms} ms there are {new[ms]} counts for {expected}: {now!r}"
                break
        gone = [row for row in before.splitlines() if row not in now.splitlines()]
        if not all(row.strip() in said for row in gone) or "drawn from" not in said:
            yield f"{gone} are replaced, and the page says {said!r}"
        undo = page.driver.find_element("xpath", "//span[@id='said']/button")
        undo.click()
        page.settle()
        if page.written("scenario") != before:
            yield f"what was drawn is not undone: {page.written('scenario')!r}"
    page.write("scenario", "at 1 s weight 1 pound\n")
    ActionChains(page.driver).move_to_element_with_offset(page.one("sketch"), 0, 20).click_and_hold().move_by_offset(60, -10).release().perform()
    page.settle()
    if "nothing is drawn" not in page.text("said"):
        yield f"drawing over a mistake: {page.text('said')!r}"


def interval_faults(page, folder):
    """The buttons of the scenario insert weights in whole intervals of the plate."""
    for unit, decimals, most, e in (("g", 0, 15000, 5), ("kg", 3, 15000, 5), ("kg", 0, 60000, 20), ("kg", 1, 12000, 2)):
        page.choose("filling")
        page.write("plate", f'unit = "{unit}"\ndecimals = {decimals}\nmax = {most}\ne = {e}\nzero_counts = 10000\nspan_counts = 600000\nwindow = 4\n')
        for label in ("+ step", "+ slope"):
            page.write("scenario", "until 5 s\n")
            page.driver.find_element("xpath", f"//button[text()='{label}']").click()
            page.settle()
            number, named = re.search(r"([\d.]+) (\w+)$", page.written("scenario").rstrip()).groups()
            if round(float(number) * 10**decimals) % e or float(number) == 0 or named != unit:
                yield f"{label} on a plate in steps of {e} with {decimals} decimals writes {number} {named}"
            if page.text("messages_scenario") or json.dumps(page.text("stale")) != '""':
                yield f"{label} writes what is refused: {page.text('messages_scenario')}"


TRIALS = (log_faults, question_faults, example_faults, remark_faults, saved_faults, drawn_faults, interval_faults)
