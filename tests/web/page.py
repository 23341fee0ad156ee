"""narbeddo.html in Chromium, with the words of its user: keys, clicks and files."""
import time
from pathlib import Path

from harness import call


def missing():
    """Debian's packages that are not installed."""
    found = []
    try:
        import selenium.webdriver  # noqa: F401
    except ImportError:
        found.append("python3-selenium")
    for program, package in (("/usr/bin/chromium", "chromium"), ("/usr/bin/chromedriver", "chromium-driver")):
        if not Path(program).exists():
            found.append(package)
    return found


def browser(folder, size=(1400, 1000), more=()):
    """Chromium without a window."""
    from selenium import webdriver
    from selenium.webdriver.chrome.service import Service
    options = webdriver.ChromeOptions()
    options.binary_location = "/usr/bin/chromium"
    for word in ("--headless=new", "--no-sandbox", "--disable-gpu", f"--window-size={size[0]},{size[1]}", f"--user-data-dir={folder}/profile", *more):
        options.add_argument(word)
    options.set_capability("goog:loggingPrefs", {"browser": "ALL", "performance": "ALL"})
    options.add_experimental_option("prefs", {"download.default_directory": str(folder)})
    return webdriver.Chrome(service=Service("/usr/bin/chromedriver"), options=options)


class Page:
    """The page in a browser, with the words of its user."""

    def __init__(self, driver, address, program):
        self.driver, self.address, self.program = driver, address, program

    def load(self):
        self.driver.get(self.address)
        self.until(lambda: self.text("outcome"), "the page does not run anything")
        self.settle()

    def until(self, is_so, fault, seconds=60):
        end = time.monotonic() + seconds
        while not is_so():
            if time.monotonic() > end:
                raise Fault(f"{fault}: {self.text('outcome')} {self.text('stale')}")
            time.sleep(0.05)

    def settle(self, seconds=0.8):
        """Waits until what was typed is checked and run: until nothing has changed for some time."""
        last, same, end = None, 0, time.monotonic() + 90
        while same < seconds * 20:
            if time.monotonic() > end:
                raise Fault(f"the page does not come to rest: {last}")
            time.sleep(0.05)
            now = self.script("return [[...document.querySelectorAll('#see, .messages, #preview, #said')].map(it => it.innerText).join(), document.getElementById('outcome').textContent + document.getElementById('found').textContent]")
            same, last = same + 1 if now == last and "running …" not in now[1] and "searching …" not in now[1] else 0, now

    def script(self, text, *values):
        return self.driver.execute_script(text, *values)

    def one(self, name):
        return self.driver.find_element("id", name)

    def text(self, name):
        return self.script("return document.getElementById(arguments[0]).innerText", name)

    def press(self, *keys):
        from selenium.webdriver import ActionChains
        ActionChains(self.driver).send_keys(*keys).perform()

    def chord(self, held, key):
        from selenium.webdriver import ActionChains
        ActionChains(self.driver).key_down(held).send_keys(key).key_up(held).perform()

    def open(self, tab):
        self.one(f"tab_{tab}").click()

    def write(self, tab, text):
        """Replaces a text as a user does who pastes one."""
        from selenium.webdriver.common.keys import Keys
        self.open(tab)
        self.driver.find_element("css selector", f"#editor_{tab} .CodeMirror-scroll").click()
        self.chord(Keys.CONTROL, "a")
        self.driver.execute_cdp_cmd("Input.insertText", {"text": text})
        self.settle()

    def written(self, tab):
        return self.script("return document.querySelector(arguments[0] + ' .CodeMirror').CodeMirror.getValue()", f"#editor_{tab}")

    def choose(self, example, answer="Replace"):
        self.script("const list = document.getElementById('example'); list.value = arguments[0]; list.dispatchEvent(new Event('change'))", example)
        question = self.question(answer)
        self.settle()
        return question

    def question(self, answer):
        """Answers the question whether something that is not saved is replaced, if it is asked. Returns the question."""
        question = self.script("return document.querySelector('dialog')?.innerText ?? ''")
        if question and answer:
            self.driver.find_element("xpath", f"//dialog//button[text()='{answer}']").click()
        return question

    def files(self, *paths, answer="Replace"):
        """Opens files; to the question whether they replace what is not saved, if it comes, the answer is this one. Returns the question."""
        self.one("open").send_keys("\n".join(str(Path(path).resolve()) for path in paths))
        self.settle(0.4)
        question = self.question(answer)
        self.settle()
        return question

    def saves(self, folder, name):
        """Saves a file of this name by the menu; its bytes, or None if the page saves none."""
        (folder / name).unlink(missing_ok=True)
        self.one("save").click()
        self.driver.find_element("xpath", f"//div[@id='save_list']//button[starts-with(., '{name}')]").click()
        self.until(lambda: name in self.text("said"), f"of {name} the page says nothing")
        if "not saved" in self.text("said"):
            time.sleep(0.5)
        else:
            self.until(lambda: (folder / name).is_file() and not list(folder.glob("*.crdownload")), f"{name} is not saved")
        return (folder / name).read_bytes() if (folder / name).is_file() else None

    def values(self):
        rows = self.script("return [...document.querySelectorAll('#values tr[data-name]')].map(row => [row.dataset.name, row.children[1].textContent])")
        return dict(rows)

    def bits(self):
        """The bits that are on, by the titles of the page."""
        titles = self.script("return [...document.querySelectorAll('#values .bit')].map(bit => bit.title)")
        return {title.split(" ")[0]: "is TRUE" in title for title in titles}

    def lines(self):
        """The lines of the scan that ran, with their results."""
        rows = self.script("return [...document.querySelectorAll('#lines tbody tr.ran')].map(row => [row.children[0].textContent, row.children[2].textContent])")
        return {int(number): result for number, result in rows}

    def find(self, text, back=False):
        from selenium.webdriver.common.keys import Keys
        self.one("what").clear()
        self.one("what").send_keys(text)
        if back:
            self.one("find_before").click()
        else:
            self.one("what").send_keys(Keys.ENTER)
        self.settle()
        return self.text("where")

    def go(self, index):
        """To a scan by keys: the first, or the last, and from there by steps."""
        from selenium.webdriver.common.keys import Keys
        count = int(self.one("plot").get_attribute("aria-valuemax"))
        self.script("document.getElementById('plot').focus()")
        if index > count // 2:
            self.press(Keys.END, *[Keys.ARROW_LEFT] * (count - 1 - index))
        else:
            self.press(Keys.HOME, *[Keys.ARROW_RIGHT] * index)

    def asked(self, folder, *words, **more):
        return call([self.program, *words], cwd=folder, text=True, **more)


class Fault(Exception):
    """What keeps a trial from going on."""


def at_files(folder, texts):
    for name, text in texts.items():
        (folder / name).write_text(text)


def run_words(folder):
    return ["--plate", "plate.toml", "--program", "program.il", *(["--next", "next.il"] if (folder / "next.il").is_file() else []), "--log", "log.csv"]
