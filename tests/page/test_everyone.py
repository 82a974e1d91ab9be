"""The page for everyone: contrast, keyboard, screen readers, paper, and no network."""
import contextlib
import re
import zlib

from browser import ActionChains, Keys
from page_test import FOUR_LEVELS, PageTest, crowd, setUpModule  # noqa: F401 (unittest calls the last one)
from shared import ENCOUNTER, THREE_LEVELS, bytes_of, moments_of, replayed

CONTRAST = """
const probe = document.body.appendChild(document.createElement("i"));
const colour = (name) => { probe.style.color = `var(--${name})`; return getComputedStyle(probe).color.match(/[\\d.]+/g).slice(0, 3).map(Number); };
const light = (rgb) => { const [r, g, b] = rgb.map((v) => (v / 255 <= 0.04045 ? v / 255 / 12.92 : ((v / 255 + 0.055) / 1.055) ** 2.4)); return 0.2126 * r + 0.7152 * g + 0.0722 * b; };
const contrast = (a, b) => { const [low, high] = [light(colour(a)), light(colour(b))].sort((x, y) => x - y); return (high + 0.05) / (low + 0.05); };
const pairs = [];
for (const ground of ["ground", "panel", "disc"]) for (const ink of ["ink", "faint", "own", "open", "bad", "recover", "l1-edge", "l2-edge", "l3-edge", "l4-edge"]) pairs.push([ink, ground, contrast(ink, ground)]);
for (const level of [1, 2, 3, 4]) pairs.push([`l${level}-ink`, `l${level}-fill`, contrast(`l${level}-ink`, `l${level}-fill`)]);
pairs.push(["unknown", "l0-fill", contrast("unknown", "l0-fill")]);
probe.remove();
return pairs;
"""


MANY = "moment 0\nown 0 0 10000 0 3600 0\n" + "".join(f"traffic T{i} {1000 + 300 * i} {4000 + 200 * i} 30000 0 -3600 0\n" for i in range(64)) + "end\n"


def texts_of(paper):
    """What a file of PDF holds, also where it is packed."""
    texts = [paper]
    for packed in re.findall(rb"stream\r?\n(.*?)endstream", paper, re.S):
        with contextlib.suppress(zlib.error):
            texts.append(zlib.decompressobj().decompress(packed))
    return texts


def pages_of(paper):
    """How many pages a file of PDF has."""
    return sum(len(re.findall(rb"/Type\s*/Page\b", text)) for text in texts_of(paper))


class Everyone(PageTest):
    def test_contrast_on_each_ground(self):
        """Each text has a contrast of 4.5 on its ground, light, dark and of paper; a level's number too;
        what has no answer 3 to what is clear."""
        for media, scheme in (("", "light"), ("", "dark"), ("print", "dark")):
            self.page.media(media, scheme)
            for ink, ground, contrast in self.page.js(CONTRAST):
                self.assertGreaterEqual(contrast, 3 if ink == "unknown" else 4.5, (media, scheme, ink, ground))
            self.page.shot(f"ground_{media}{scheme}")

    def test_letters_grow_with_those_that_the_browser_is_set_to(self):
        """All of the panel, the bar and the header, by one half."""
        sizes = """return ["#summary", "#aircraft td", "#report", "#toml", "#clock", "header label", "#state input", "#add"].map(
            (it) => parseFloat(getComputedStyle(document.querySelector(it)).fontSize))"""
        before = self.page.js(sizes)
        self.page.js("document.documentElement.style.fontSize = '150%'")
        self.assertEqual(self.page.js(sizes), [round(1.5 * size, 3) for size in before])

    def test_the_ground_is_chosen(self):
        ground = "return getComputedStyle(document.body).backgroundColor"
        self.page.select("#theme", "dark")
        dark = self.page.js(ground)
        self.page.select("#theme", "light")
        self.assertNotEqual(self.page.js(ground), dark)

    def test_by_keyboard_alone(self):
        """The tabulator reaches each control and each thing on the display; keys play, step and change the range."""
        reached = []
        for _ in range(80):
            self.page.press(Keys.TAB)
            at = self.page.focused()
            if at["tag"] == "BODY":
                break
            reached.append(at["key"] or at["id"] or at["tag"])
        for name in ("example", "file", "compare", "link", "theme", "p:AMBER", "v:AMBER", "p:", "v:", "track", "gs", "vs", "alt", "play", "speed", "axis", "report", "add", "copy"):
            self.assertIn(name, reached)
        self.page.js("document.activeElement.blur()")
        moments = moments_of(replayed(THREE_LEVELS, bytes_of(ENCOUNTER)))
        self.page.press(".")
        self.assertEqual(self.page.report(), moments[1])
        self.page.press(",")
        self.assertEqual(self.page.report(), moments[0])
        before = self.page.js("return daa.page.views[0].look.range")
        self.page.press("-")
        self.assertGreater(self.page.js("return daa.page.views[0].look.range"), before)
        self.page.press("+")
        self.assertEqual(self.page.js("return daa.page.views[0].look.range"), before)

    def test_the_focus_is_seen(self):
        self.page.js("arguments[0].focus()", self.page.one("#axis"))
        self.page.press(Keys.SHIFT, Keys.TAB)
        self.assertNotEqual(self.page.js("return getComputedStyle(document.activeElement).outlineStyle"), "none")
        self.page.press(Keys.ESCAPE)
        self.page.js("arguments[0].focus()", self.page.handle("p:AMBER"))
        self.page.press(Keys.ARROW_UP)
        self.assertEqual(self.page.js("return getComputedStyle(arguments[0].querySelector('.focus')).opacity", self.page.handle("p:AMBER")), "1")

    def test_by_screen_reader(self):
        """In the tree that a screen reader is given, all that takes the focus has a name, sliders their words, and the sentence is live."""
        nodes = list(self.page.tree())
        for role, name, value, takes_focus in nodes:
            if takes_focus and role not in ("RootWebArea", "complementary", "generic"):
                self.assertTrue(name, (role, value))
            if role == "slider":
                self.assertNotIn(value, ("", None), name)
        self.assertIn(("slider", "AMBER"), [node[:2] for node in nodes])
        words = self.page.js("return document.querySelector(\".handle[data-key='p:AMBER']\").getAttribute('aria-valuetext')")
        self.assertRegex(words, r"^8\.5 NM away, 0 hundred feet above, alert level 2 in 43 seconds$")
        self.assertEqual(self.page.one("#clock").get_attribute("aria-live"), "off")
        self.assertEqual(self.page.one("#summary").get_attribute("aria-live"), "polite")
        self.assertIn("AMBER level 2 in 43 s", self.page.text("#summary"))
        self.assertIn("track right to 010°", self.page.text("#summary"))

    def test_a_word_is_explained_where_it_is_clicked(self):
        """By a box in the window, beside it, until something else is clicked or Escape is pressed; a label's too, whose aircraft stays where it is."""
        before = self.page.states()
        box = self.page.one("#meaning")
        for selector, begin in (("[data-layer=answers] [data-kind=track][data-what=upper]", "Open: "), ("[data-layer=answers] [data-kind=track][data-what=lower]", "None: "),
                                ("[data-layer=legend] [data-word=corrective] text", "Corrective: "), (".handle[data-key='p:AMBER'] [data-word=height] text", "Height above (+)")):
            x, y = self.page.js("const { x, y, width, height } = document.querySelector(arguments[0]).getBoundingClientRect(); return [x + width / 2, y + height / 2]",
                                "figure[data-view='0'] " + selector)
            actions = ActionChains(self.page.driver)
            actions.w3c_actions.pointer_action.move_to_location(round(x), round(y))
            actions.click().perform()
            self.page.settle()
            self.assertTrue(box.is_displayed() and box.text.startswith(begin), (selector, box.text))
            left, top, right, bottom, wide, tall = self.page.js("""const { left, top, right, bottom } = arguments[0].getBoundingClientRect();
                return [left, top, right, bottom, innerWidth, innerHeight]""", box)
            self.assertTrue(0 <= left and 0 <= top and right <= wide and bottom <= tall)
        self.page.press(Keys.ESCAPE)
        self.assertFalse(box.is_displayed())
        self.assertEqual(self.page.states(), before)

    def test_one_line_says_what_this_is(self):
        line = self.page.one("#what")
        self.assertTrue(line.is_displayed())
        self.assertIn("Drag an aircraft", line.text)

    def test_the_skip_link_keeps_the_pages_link(self):
        self.page.link(is_refused=True)
        held = self.page.js("document.querySelector('.skip').focus(); return location.hash")
        self.page.press(Keys.ENTER)
        self.assertEqual((self.page.focused()["id"], self.page.js("return location.hash")), ("panel", held))

    def test_aircraft_that_are_folded_are_counted_on_paper(self):
        self.page.open_files(self.page.file("four.toml", FOUR_LEVELS), self.page.file("crowd.states", crowd()))
        self.page.media("print", "light")
        self.assertTrue(self.page.one("#rest").is_displayed())
        self.assertRegex(self.page.text("#rest"), "^[0-9]+ more without an alert$")

    def test_on_paper(self):
        """On paper the ground is white, whatever the screen's, patterns stay, controls are gone; what makes the sheet again is there."""
        self.page.step_to(3)
        self.page.media("print", "dark")
        self.assertEqual(self.page.js("return getComputedStyle(document.body).backgroundColor"), "rgb(255, 255, 255)")
        self.assertEqual(self.page.js("return getComputedStyle(document.querySelector('.ground')).fill"), "rgb(255, 255, 255)")
        for selector in ("#play", "#example", "#link", "figcaption", "#toml", "#add"):
            self.assertFalse(self.page.one(selector).is_displayed(), selector)
        for selector in ("figure svg", "#strip", "#summary", "#aircraft", "#report"):
            self.assertTrue(self.page.one(selector).is_displayed(), selector)
        self.assertEqual(self.page.js("return document.querySelector(\"[data-layer=ring] [data-level='3']\").getAttribute('fill')"), "url(#level3)")
        self.page.js("dispatchEvent(new Event('beforeprint'))")
        self.page.shot("paper")
        self.page.js("dispatchEvent(new Event('afterprint'))")
        self.assertTrue(self.page.one("#sheet").is_displayed())
        self.assertIn(self.page.states(), self.page.text("#sheet"))
        self.check_pages(self.page.paper(), 2)

    def check_pages(self, paper, most):
        """There are no more pages than so many, and text stands on each."""
        written = sum(len(re.findall(rb"\bT[jJ]\b", text)) > 3 for text in texts_of(paper))
        self.assertTrue(1 <= pages_of(paper) <= min(most, written), (pages_of(paper), written))

    def test_no_page_of_a_long_sheet_is_empty(self):
        """Of 64 aircraft, whose state lines go on over the pages."""
        self.page.open_files(self.page.file("many.states", MANY))
        self.page.js("dispatchEvent(new Event('beforeprint'))")
        self.page.media("print", "light")
        self.check_pages(self.page.paper(), 4)

    def test_nothing_is_asked_of_a_network(self):
        """All that was loaded is of the page's own folder, and the browser refuses to fetch."""
        self.page.wait("document.body.dataset.surveyed === '19'")
        loaded = self.page.js("return performance.getEntriesByType('resource').map((it) => it.name)")
        self.assertTrue(all(name.startswith(("file:", "blob:", "data:")) for name in loaded), loaded)
        answer = self.page.driver.execute_async_script("const done = arguments[0]; fetch('data:,x').then(() => done('fetched'), (problem) => done('refused'));")
        self.assertEqual(answer, "refused")
        self.page.expect_a_problem()  # which tells of that refusal
