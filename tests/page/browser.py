"""The page in a browser, Chromium or Firefox, driven by real events, and what it shows."""
import base64
import json
import os
import pathlib
import shutil
import tempfile
import time

from shared import Page

try:
    from selenium import webdriver
    from selenium.webdriver.common.action_chains import ActionChains
    from selenium.webdriver.common.by import By
    from selenium.webdriver.common.keys import Keys
    from selenium.webdriver.common.actions.wheel_input import ScrollOrigin
    from selenium.webdriver.common.print_page_options import PrintOptions
    from selenium.webdriver.support.ui import Select

    import firefox
except ImportError:
    webdriver = ActionChains = By = Keys = PrintOptions = ScrollOrigin = Select = firefox = None

IN_FIREFOX = os.environ.get("PAGE_BROWSER") == "firefox"
if IN_FIREFOX:
    HOW = "firefox or selenium is missing (Debian: apt-get install firefox-esr python3-selenium)"
    HAS_BROWSER = bool(webdriver and firefox.executable())
else:
    HOW = "chromium, chromedriver or selenium is missing (Debian: apt-get install chromium chromium-driver python3-selenium)"
    HAS_BROWSER = bool(webdriver and shutil.which("chromium") and shutil.which("chromedriver"))
FIGURE = "figure[data-view='{}'] "
LONG = 90  # seconds that nothing here takes, whatever else the machine does

# Waits until what is shown is the answer to the states that are shown, and two frames more.
SETTLE = """
const done = arguments[0], frames = (n) => (n ? requestAnimationFrame(() => frames(n - 1)) : done());
const isAnswered = ({ views, compare, version }) => views.every((it, place) => (place && !compare) || it.answered === `${version}/${it.edition}`);
const look = () => (document.body.dataset.settled === "yes" && isAnswered(daa.page) ? frames(2) : setTimeout(look, 5));
requestAnimationFrame(() => requestAnimationFrame(look));
"""


class Browser:
    """A browser with the page, and the ways to use it; Chromium and Firefox each start theirs and set what only they can."""

    def __init__(self):
        self.folder = tempfile.mkdtemp(prefix="page")
        self.downloads = os.path.join(self.folder, "downloads")
        os.mkdir(self.downloads)
        self.driver = self.start()
        self.wait_at_most(LONG)

    def close(self):
        self.driver.quit()
        shutil.rmtree(self.folder, ignore_errors=True)

    def wait_at_most(self, seconds):
        """Sets after how many seconds what has not come is given up."""
        self.long = seconds
        self.driver.set_script_timeout(seconds)

    # Opening.

    def open(self, after="", width=1440, height=900):
        """Opens the page as a file, anew, and waits until it is ready; `after` follows the address."""
        self.driver.get("about:blank")
        self.size(width, height)
        self.media()
        self.problems()
        self.go(after)
        self.wait("document.body.dataset.ready === 'yes'")
        self.settle()

    def go(self, after=""):
        self.driver.get(pathlib.Path(Page.folder, "index.html").resolve().as_uri() + after)

    def wait(self, condition, what=""):
        end = time.monotonic() + self.long
        while not self.js(f"return Boolean({condition})"):
            if time.monotonic() > end:
                raise AssertionError(f"it never came that {what or condition}")
            time.sleep(0.05)

    def settle(self):
        self.driver.execute_async_script(SETTLE)

    def stand(self):
        """Waits until the page scrolls no more: a swipe goes on for a while, and a finger then cannot hold anything."""
        was, now = None, self.js("return scrollY")
        while was != now:
            time.sleep(0.3)
            was, now = now, self.js("return scrollY")

    def js(self, script, *words):
        return self.driver.execute_script(script, *words)

    def expect_a_problem(self):
        """Waits until the console has told of an error."""
        end = time.monotonic() + self.long
        while not self.problems():
            if time.monotonic() > end:
                raise AssertionError("the console tells of no error")
            time.sleep(0.02)

    def paper(self):
        """The page as it is printed: a file of PDF, of A4 and without backgrounds."""
        options = PrintOptions()
        options.page_width, options.page_height = 21, 29.7
        return base64.b64decode(self.driver.print_page(options))

    # Events.

    def actions(self):
        return ActionChains(self.driver)

    def one(self, selector):
        return self.driver.find_element(By.CSS_SELECTOR, selector)

    def click(self, selector):
        self.one(selector).click()
        self.settle()

    def select(self, selector, name):
        Select(self.one(selector)).select_by_visible_text(name)
        self.settle()

    def keys(self, selector, *keys):
        self.one(selector).send_keys(*keys)
        self.settle()

    def press(self, *keys):
        ActionChains(self.driver).send_keys(*keys).perform()
        self.settle()

    def fill(self, selector, text):
        field = self.one(selector)
        field.send_keys(Keys.CONTROL, "a")
        field.send_keys(text)
        self.settle()

    def open_files(self, *paths):
        self.one("#file").send_keys("\n".join(map(os.path.realpath, paths)))
        self.wait("document.querySelector('#file').value === ''", "all files are read")
        self.settle()

    def link(self, is_refused=False):
        """Presses `Copy link`: what follows # in the link that is copied, or that stands in the address where copying is refused."""
        self.js("""daa.copied = "";
            const writeText = arguments[0] ? () => Promise.reject() : async (text) => { daa.copied = text; };
            Object.defineProperty(navigator, "clipboard", { configurable: true, value: { writeText } });""", is_refused)
        self.click("#link")
        self.wait("location.hash.startsWith('#m=')" if is_refused else "daa.copied")
        return self.js("return new URL(daa.copied || location.href).hash")

    def file(self, name, content):
        path = os.path.join(self.folder, name)
        with open(path, "wb") as file:
            file.write(content.encode() if isinstance(content, str) else content)
        return path

    def handle(self, key, view=0):
        return self.one(FIGURE.format(view) + f".handle[data-key='{key}']")

    def grab(self, key, *offsets):
        """Holds a handle in its middle and moves it by offsets, without letting go."""
        x, y = self.js("const m = arguments[0].getScreenCTM(); return [m.e, m.f]", self.handle(key))
        actions = ActionChains(self.driver)
        actions.w3c_actions.pointer_action.move_to_location(round(x), round(y))
        actions.click_and_hold()
        for offset in offsets:
            actions.move_by_offset(*offset)
        actions.perform()
        self.settle()

    def let_go(self):
        ActionChains(self.driver).release().perform()
        self.settle()

    def drag(self, key, *offsets):
        self.grab(key, *offsets)
        self.let_go()

    def step_to(self, place):
        """Puts the slider on a moment by its keys."""
        at = self.js("return daa.page.index")
        key = Keys.ARROW_RIGHT if place > at else Keys.ARROW_LEFT
        if place != at:
            self.keys("#axis", key * abs(place - at))

    def downloaded(self, ending):
        end = time.monotonic() + self.long
        while time.monotonic() < end:
            found = [name for name in os.listdir(self.downloads) if name.endswith(ending)]
            if found:
                path = os.path.join(self.downloads, found[0])
                time.sleep(0.1)
                with open(path, "rb") as file:
                    content = file.read()
                os.remove(path)
                return content
            time.sleep(0.05)
        raise AssertionError(f"no {ending} was written")

    # What is shown.

    def states(self):
        """The shown moment as state lines, which the page gives for the program."""
        return self.js("return daa.stateLines([daa.page.current])")

    def report(self, place=0):
        """The report's lines that are shown, in the report's order."""
        lines = self.js("""return [...document.querySelectorAll(`[data-report='${arguments[0]}'] .line`)].map((it) => [Number(it.dataset.line), it.querySelector("span").textContent])""", place)
        return "".join(line + "\n" for _, line in sorted(lines))

    def levels(self, view=0):
        return {key[2:]: int(level) for key, level in self.js("""return [...document.querySelectorAll(arguments[0])].map((it) => [it.dataset.key, it.dataset.level])""",
                FIGURE.format(view) + ".handle[data-level]")}

    def titles(self, layer, view=0):
        return self.js("return [...document.querySelectorAll(arguments[0])].map((it) => it.textContent)", FIGURE.format(view) + f"[data-layer={layer}] [data-level] title")

    def answers(self, view=0):
        found = self.js("return [...document.querySelectorAll(arguments[0])].map((it) => [it.dataset.kind, it.dataset.what, it.textContent])", FIGURE.format(view) + "[data-layer=answers] text")
        return {(kind, what): words for kind, what, words in found}

    def text(self, selector):
        return self.js("return document.querySelector(arguments[0]).textContent", selector)

    def shot(self, name):
        folder = os.environ.get("PAGE_SHOTS")
        if folder:
            self.driver.save_screenshot(os.path.join(folder, f"{name}.png"))

    def focused(self):
        return json.loads(self.js("const it = document.activeElement; return JSON.stringify({ key: it.dataset.key || null, id: it.id, tag: it.tagName })"))


class Chromium(Browser):
    logs = ("browser",)
    traced = ""  # what it writes down of its own work, for the log "performance"

    def start(self):
        options = webdriver.ChromeOptions()
        for word in ("--headless=new", "--no-sandbox", "--disable-gpu", "--hide-scrollbars", "--force-color-profile=srgb", f"--user-data-dir={self.folder}/profile",
                     "--disable-features=PreloadTopChromeWebUI"):  # (pages of the browser's own, which nobody sees)
            options.add_argument(word)
        options.set_capability("goog:loggingPrefs", dict.fromkeys(self.logs, "ALL"))
        if self.traced:
            options.add_experimental_option("perfLoggingPrefs", {"enableNetwork": False, "enablePage": False, "traceCategories": self.traced})
        driver = webdriver.Chrome(options=options)
        driver.execute_cdp_cmd("Browser.setDownloadBehavior", {"behavior": "allow", "downloadPath": self.downloads})
        return driver

    def size(self, width, height):
        self.driver.execute_cdp_cmd("Emulation.setDeviceMetricsOverride", {"width": width, "height": height, "deviceScaleFactor": 1, "mobile": False})

    def media(self, media="", scheme=""):
        """Shows the page as on a medium, and under a scheme of colours; without a name as it is."""
        named = [{"name": "prefers-color-scheme", "value": scheme}]
        self.driver.execute_cdp_cmd("Emulation.setEmulatedMedia", {"media": media, "features": named})

    def swipe(self, x, y, right, down):
        """A finger at a point of the window, and its way."""
        touch = lambda kind, *at: self.driver.execute_cdp_cmd("Input.dispatchTouchEvent", {"type": kind, "touchPoints": list(at)})
        self.driver.execute_cdp_cmd("Emulation.setTouchEmulationEnabled", {"enabled": True})
        touch("touchStart", {"x": x, "y": y})
        for step in range(1, 9):
            touch("touchMove", {"x": x + right * step / 8, "y": y + down * step / 8})
        touch("touchEnd")
        self.driver.execute_cdp_cmd("Emulation.setTouchEmulationEnabled", {"enabled": False})
        self.settle()

    def problems(self):
        """What the console told of errors since it was asked last."""
        return [entry["message"] for entry in self.driver.get_log("browser") if entry["level"] == "SEVERE"]

    def tree(self):
        """What a screen reader is given: of each node its role, its name, its value, and whether it takes the focus."""
        nodes = self.driver.execute_cdp_cmd("Accessibility.getFullAXTree", {})["nodes"]
        for node in nodes:
            properties = {it["name"]: it["value"].get("value") for it in node.get("properties", [])}
            role, name, value = (node.get(part, {}).get("value", "") for part in ("role", "name", "value"))
            yield role, name, value, bool(properties.get("focusable")) and not node.get("ignored")


class Firefox(Browser):
    def start(self):
        return firefox.Firefox(self.folder, self.downloads)

    def size(self, width, height):
        """Makes the window so large that the page has this size."""
        around = self.driver.execute_script("return [outerWidth - innerWidth, outerHeight - innerHeight]")
        self.driver.set_window_rect(width=width + around[0], height=height + around[1])
        self.wait(f"innerWidth === {width} && innerHeight === {height}")

    def media(self, media="", scheme=""):
        self.driver.chrome("""const { browsingContext: it } = gBrowser.selectedBrowser;
            it.top.mediumOverride = arguments[0];
            it.top.prefersColorSchemeOverride = arguments[1] || "none";""", media, scheme)

    def problems(self):
        return self.driver.chrome("""
            const told = Services.console.getMessageArray().filter((it) => it instanceof Ci.nsIScriptError && !(it.flags & Ci.nsIScriptError.warningFlag)
              && /^(file|blob):/.test(it.sourceName)).map(String);
            Services.console.reset();
            return told;""")

    def tree(self):
        for it in self.driver.find_elements(By.CSS_SELECTOR, "a[href], button, input, select, textarea, summary, [tabindex]"):
            if self.js("return arguments[0].checkVisibility()", it):
                value = it.get_attribute("aria-valuetext") or it.get_property("value")
                yield self.driver.computed("Role", it), self.driver.computed("Label", it), value, True


def browser():
    return Firefox() if IN_FIREFOX else Chromium()
