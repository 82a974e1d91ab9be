"""The page over stand-ins for a browser: configurations, files, recordings and links."""
import os
import random
import re
import tempfile
import unittest

from nodes import EDIT, HOW, NODE, OPEN, STATES, on_page, xml_of
from shared import ENCOUNTER, EXAMPLES, RECOVERY, THREE_LEVELS, bytes_of, moments_of, replayed, text_of


@unittest.skipUnless(NODE, HOW)
class Loaded(unittest.TestCase):
    maxDiff = 3000

    def test_a_changed_moment_has_no_name_of_a_recording(self):
        before, after = on_page("""
            const head = () => display().querySelector("[data-layer=head]").innerHTML;
            const before = head();
            await press("p:AMBER", "ArrowUp");
            return [before, head()];""")
        words = [[it.text for it in xml_of(text)][1] for text in (before, after)]
        self.assertEqual(words, ["encounter.states", "changed by hand"])

    def test_a_link_holds_the_names(self):
        """Of both configurations and of the recording, and how it is looked at; other ones were taken meanwhile."""
        before, meanwhile, after = on_page("""
            const names = () => [...page.views.map(({ name }) => name), page.name, { ...page.views[0].look }];
            Object.assign(page.views[0].look, { auto: false, trackUp: true, paths: true, range: 24, heights: 6000 });
            const before = names();
            await fire($("link"), "click");
            $("example").value = "all closed, with recoveries";
            await fire($("example"), "change");
            const meanwhile = names();
            Object.assign(page.views[0].look, { auto: true, trackUp: false, paths: false, range: 6, heights: 1500 });
            page.hash = "";
            await fire(screen, "hashchange");
            await settle();
            return [before, meanwhile, names()];""")
        held = ["three_levels", "recovery", "encounter.states", {"auto": False, "trackUp": True, "paths": True, "range": 24, "heights": 6000}]
        self.assertEqual((before, meanwhile[0], after), (held, "recovery", held))

    def test_a_copied_link_leaves_the_recording(self):
        """It stands in the address then, and is not taken from there."""
        found = on_page("""
            await fire($("link"), "click");
            await fire(screen, "hashchange");
            await settle();
            return [location.hash.startsWith("#m="), page.moments.length];""")
        self.assertEqual(found, [True, 19])

    def test_a_link_is_taken_where_the_browser_goes_back_and_forward(self):
        """Also where something else is shown since it was made."""
        names = on_page("""
            await fire($("link"), "click");
            const link = location.hash, names = [];
            $("example").value = "all closed, with recoveries";
            await fire($("example"), "change");
            for (const hash of ["", link]) {
              location.hash = hash;
              await fire(screen, "hashchange");
              await settle();
              names.push(page.name);
            }
            return names;""")
        self.assertEqual(names, ["closed.states", "encounter.states"])

    def test_a_link_of_a_changed_moment_has_no_name_of_a_recording(self):
        head = on_page("""
            await press("p:AMBER", "ArrowUp");
            await fire($("link"), "click");
            page.hash = "";
            await fire(screen, "hashchange");
            await settle();
            return display().querySelector("[data-layer=head]").innerHTML;""")
        self.assertEqual([it.text for it in xml_of(head)][1], "changed by hand")

    def test_a_refused_configuration_gives_no_name(self):
        """What is shown is named as the one that it is shown under."""
        head, label, fault, *invalid = on_page(OPEN + """
            const before = $("toml").getAttribute("aria-invalid");
            await open(["strict.toml", given[0]]);
            await press("p:AMBER", "ArrowUp");
            return [display().querySelector("[data-layer=head]").innerHTML, display().getAttribute("aria-label"), $("config-fault").textContent, before,
              $("toml").getAttribute("aria-invalid")];""",
            text_of(THREE_LEVELS).replace("track_step = 5\n", "track_step = 7\n"))
        self.assertEqual([text.text for text in xml_of(head)][2], "three_levels")
        self.assertRegex(label, "^Display under three_levels: ")
        self.assertIn("track_step = 7 does not divide 360", fault)
        self.assertEqual(invalid, ["false", "true"])

    def test_a_refused_configuration_is_told_beside_what_is_shown(self):
        """Where it was opened, edited, or came by a link; until one is taken."""
        config, held = text_of(THREE_LEVELS), {"states": "moment 7\nown 0 0 0 0 0 0\nend\n", "name": "", "look": [{}, {}]}
        linked = {**held, "configs": [{"name": "x", "toml": config + "x = 1\n"}, {"name": "y", "toml": config}]}
        told = on_page(OPEN + EDIT + """
            const told = [], tell = () => told.push($("fault").textContent);
            await open(["strict.toml", "x = 1"]);
            tell();
            await edit(given[0]);
            tell();
            await edit("x = 1");
            tell();
            $("preset").value = "recovery";
            await fire($("preset"), "change", { target: $("preset") });
            await settle();
            tell();
            location.hash = `#${await daa.pack(given[1])}`;
            await fire(screen, "hashchange");
            await settle();
            tell();
            return told;""", config, linked)
        kept = "a configuration is refused, and {} is shown in its place".format
        self.assertEqual(told, [kept("three_levels"), "", kept("edited"), "", kept("recovery")])

    def test_the_second_configuration_is_edited_and_chosen(self):
        """And the first one is left."""
        found = on_page(EDIT + """
            const found = [], names = () => found.push(page.views.map(({ name, toml }) => [name, toml === given[0]]));
            names();
            $("which").value = "1";
            await fire($("which"), "change");
            await edit(given[0]);
            names();
            await fire($("preset"), "change", { target: { value: "three_levels" } });
            names();
            return found;""", "# edited\n" + text_of(RECOVERY))
        self.assertEqual(found, [[["three_levels", False], [name, name == "edited"]] for name in ("recovery", "edited", "three_levels")])

    def test_a_configuration_that_was_edited_is_taken_anew(self):
        """No other one is named as that which counts, so that each one can be chosen."""
        found = on_page(OPEN + EDIT + """
            const found = [], name = () => found.push($("preset").value);
            name();
            await edit(given[0] + "# edited\\n");
            name();
            await edit(given[0]);
            name();
            $("which").value = "1";
            await fire($("which"), "change");
            name();
            await open(["own.toml", "# own\\n" + given[0]]);
            name();
            await fire($("preset"), "change", { target: { value: "recovery" } });
            name();
            return found;""", text_of(THREE_LEVELS))
        self.assertEqual(found, ["three_levels", "", "three_levels", "recovery", "", "recovery"])

    def test_an_aircraft_is_added_within_the_range(self):
        """Northeast of the ownship, level with it, westward at 150 knots."""
        states = on_page(f'await fire($("add"), "click"); await settle(); return {STATES};')
        self.assertIn("traffic NEW1 6000 6000 10000 -1500 0 0\n", states)

    def test_a_link_holds_the_configuration_that_counts(self):
        """And not what was edited since, and is refused."""
        edited = text_of(THREE_LEVELS).replace("track_step = 5\n", "track_step = 10\n")
        before, after = on_page(EDIT + """
            const shown = () => [page.views[0].name, page.views[0].said.text];
            await edit(given[0]);
            await edit("x = 1\\n" + given[0]);
            const before = shown();
            await fire($("link"), "click");
            await edit(given[1]);
            page.hash = "";
            await fire(screen, "hashchange");
            await settle();
            return [before, shown()];""", edited, text_of(RECOVERY))
        with tempfile.NamedTemporaryFile("w", suffix=".toml") as file:
            file.write(edited)
            file.flush()
            self.assertEqual(before, ["edited", moments_of(replayed(file.name, bytes_of(ENCOUNTER)))[0]])
        self.assertEqual(after, before)

    def test_a_button_that_is_clicked_twice_has_its_words_again(self):
        words = on_page("""
            $("copy").textContent = "Copy";
            for (const time of [1, 2]) await fire($("copy"), "click");
            const words = [$("copy").textContent];
            await new Promise((done) => setTimeout(done, 1700));
            return [...words, $("copy").textContent];""")
        self.assertEqual(words, ["Saved", "Copy"])

    def test_a_link_holds_a_long_text(self):
        text = "".join(map(str, random.Random(1).choices(range(1000), k=100000)))
        self.assertTrue(on_page("return (await daa.unpack(`#${await daa.pack(given[0])}`)) === given[0];", text))

    def test_a_refused_moment_has_no_link(self):
        told, hash = on_page("""
            await fire($("state"), "input", { target: { dataset: { field: "alt", scale: "1" }, value: "70000" } });
            await settle();
            await fire($("link"), "click");
            return [$("link").textContent, location.hash];""")
        self.assertEqual((told, hash), ("No link: altitude of the ownship is not within -2000 and 60000 ft", ""))

    def test_a_link_that_holds_no_moment_is_left(self):
        """And told: links of another form, and one whose state lines are refused; but the one to the panel is none."""
        whole = {"states": "moment 7\nown 0 0 0 0 0 0\nend\n", "name": "", "configs": [{}, {}], "look": [{}, {}]}
        wrong = [5, {}, [], {**whole, "configs": [{}, {}, {}]}, {**whole, "look": [{}, None]}, {**whole, "look": {}}, {**whole, "states": "moment 7\n"}]
        times, told, head = on_page("""
            const times = [], told = [];
            for (const held of ["panel", ...given]) {
              location.hash = held === "panel" ? "#panel" : `#${await daa.pack(held)}`;
              await fire(screen, "hashchange");
              await settle();
              times.push(page.current.time);
              told.push($("fault").textContent);
            }
            return [times, told, display().querySelector("[data-layer=head]").innerHTML];""", *wrong, whole)
        self.assertEqual(times, [0] * (1 + len(wrong)) + [7])
        self.assertEqual([it.text for it in xml_of(head)][1], None)
        self.assertEqual(told.pop(0), "")
        self.assertEqual(told[-2:], [" has no whole moment; line 2 was refused with code 14", "a configuration is refused, and three_levels is shown in its place"])
        self.assertEqual(set(told[:-2]), {"the link holds no moment: is it whole?"})

    def test_of_two_links_the_later_one_is_taken(self):
        """Also where it comes while the first one is unpacked, and is unpacked sooner."""
        held = {"name": "", "configs": [{"name": "x", "toml": text_of(THREE_LEVELS)}] * 2, "look": [{}, {}]}
        links = [{**held, "states": f"moment {time}\nown 0 0 0 0 0 0\nend\n"} for time in (7, 8)]
        found = on_page("""
            const links = [], { unpack } = daa, found = [];
            for (const held of given) links.push(`#${await daa.pack(held)}`);
            for (const late of links) {
              daa.unpack = async (hash) => {
                const held = await unpack(hash);
                if (hash === late) await new Promise((done) => setTimeout(done, 50));
                return held;
              };
              const taken = links.map((hash) => {
                location.hash = hash;
                return fire(screen, "hashchange");
              });
              await Promise.all(taken);
              await settle();
              found.push(page.current.time);
              location.hash = page.hash = "";
            }
            return found;""", *links)
        self.assertEqual(found, [8, 8])

    LACKING = text_of(ENCOUNTER).replace("moment 20\n", "moment 20\ntraffic TOOLONGID 0 0 0 0 0 0\nnothing\n")
    NOTES = """const notes = async (index) => {
      if (index !== undefined) {
        daa.ui.goTo(Number(index));
      }
      await settle();
      return [$("notes").textContent, $("notes").className];
    };"""

    def test_what_a_moment_lacks_is_told_whatever_is_changed_by_hand(self):
        """And is not told of the moments round it."""
        found = on_page(OPEN + self.NOTES + """
            await open(["wrong.states", given[0]]);
            const found = [await notes("1"), await notes("2")];
            await press("p:AMBER", "ArrowUp");
            return [...found, page.edited, await notes(), await notes("3")];""", self.LACKING)
        whole = ["wrong.states: 2 lines were refused", "quiet"]
        refused = re.findall(r"(?m)^refused (\d+) (\d+)$", replayed(THREE_LEVELS, self.LACKING.encode()))
        self.assertEqual([code for _, code in refused], ["5", "2"])
        lack = [f"{whole[0]}; " + "; ".join(f"line {line} was refused with code {code}" for line, code in refused), "problem"]
        self.assertEqual(found, [whole, lack, True, lack, whole])

    def test_a_moment_that_lacks_something_is_called_incomplete_on_the_display(self):
        """And so in its pictures, whatever is changed by hand; a link has its name alone."""
        *heads, name = on_page(OPEN + self.NOTES + """
            const heads = [], head = () => heads.push(display().querySelector("[data-layer=head]").innerHTML);
            await open(["wrong.states", given[0]]);
            for (const index of ["1", "2"]) {
              await notes(index);
              head();
            }
            await fire($("link"), "click");
            await press("p:AMBER", "ArrowUp");
            head();
            return [...heads, (await daa.unpack(location.hash)).name];""", self.LACKING)
        self.assertEqual([[it.text for it in xml_of(head)][1] for head in heads], ["wrong.states", "incomplete · wrong.states", "incomplete · changed by hand"])
        self.assertEqual([[it.get("class") for it in xml_of(head)][1] for head in heads], ["small", "none", "none"])
        self.assertEqual(name, "wrong.states")

    def test_a_link_tells_what_its_moment_lacks(self):
        """Also of a moment that was changed by hand; and so does a link that is made of it. One of another page, that tells nothing, is taken."""
        found = on_page(OPEN + self.NOTES + """
            const visit = async () => {
              await fire($("link"), "click");
              $("example").value = "encounter, three levels";
              await fire($("example"), "change");
              await settle();
              const between = await notes();
              page.hash = "";
              await fire(screen, "hashchange");
              return [between, await notes()];
            };
            await open(["wrong.states", given[0]]);
            const found = [await notes("2"), ...await visit(), ...await visit()];
            await press("p:AMBER", "ArrowUp");
            found.push(...await visit());
            const { told, lacks, ...held } = await daa.unpack(location.hash);
            location.hash = `#${await daa.pack({ ...held, told: 5 })}`;
            await fire(screen, "hashchange");
            return [...found, await notes()];""", self.LACKING)
        (words, style), none = found[0], ["", "quiet"]
        self.assertEqual(style, "problem")
        self.assertRegex(words, "^wrong.states: 2 lines were refused; line ")
        link = "opened from a link, which holds this one moment"
        self.assertEqual(found, [[words, style]] + [none, [f"{link}; {words}", style]] * 3 + [[link, "quiet"]])

    def test_an_aircraft_that_is_left_out_of_a_recording_is_told_in_its_moments(self):
        """A's report is 12 seconds old in the second moment, and new in the third; of 71 aircraft around another ownship 7 are too many."""
        head, own = "name time sx sy sz trk gs vs\n", "own {} 0 0 1000 0 100 0\n"
        late = head + "A 0 1 0 1000 0 100 0\n" + own.format(0) + own.format(12) + "A 13 1 0 1000 0 100 0\n" + own.format(13)
        many = head + "".join(f"T{number} 0 {number / 10} 0 1000 0 100 0\n" for number in range(71)) + own.format(0)
        late_notes, many_notes, linked = on_page(OPEN + self.NOTES + """
            const seen = async (name, text) => {
              await open([name, text]);
              $("own").value = "own";
              await fire($("own"), "change");
            };
            await seen("late.daa", given[0]);
            const late = [await notes("0"), await notes("1"), await notes("2")];
            await notes("1");
            await fire($("link"), "click");
            await seen("many.daa", given[1]);
            const many = await notes();
            page.hash = "";
            await fire(screen, "hashchange");
            return [late, many, await notes()];""", late, many)
        told = "seen from own; left out: 1 aircraft whose report is older than 10 s, in a moment"
        lack = "without A: no report for 12 s, 1.1 NM away"
        self.assertEqual(late_notes, [[told, "quiet"], [f"{told}; {lack}", "problem"], [told, "quiet"]])
        self.assertEqual(linked, [f"opened from a link, which holds this one moment; {told}; {lack}", "problem"])
        missing = "".join(f"without T{number}: more than 64 aircraft, {number / 10} NM away; " for number in range(64, 69))
        self.assertEqual(many_notes, ["seen from own; left out: 7 aircraft out of range, or more than there may be, in a moment; "
                                      f"{missing}2 more are missing", "problem"])

    def test_a_file_that_is_not_taken_is_told_until_another_one_is_opened(self):
        told = on_page(OPEN + """
            const told = [];
            for (const [name, text] of given) {
              await open([name, text]);
              daa.ui.goTo(Number("1"));
              await settle();
              told.push($("fault").textContent);
            }
            return told;""", ["none.states", "nothing\n"], ["none.daa", "name time\n"], ["a.states", text_of(ENCOUNTER)])
        self.assertEqual(told, ["none.states has no whole moment; line 1 was refused with code 2",
                                "none.daa: the header has no column for alt (an altitude), a place (lat lon, or sx sy), a speed (trk gs, or vx vy); it has name, time; "
                         "if one of these is it, tell tools/from_daa so: --columns alt=NAME", ""])

    def test_each_file_that_is_not_taken_is_told(self):
        """Of several that are opened at once, before and after one that is taken; a folder, which cannot be read, is one too."""
        told, name = on_page("""
            const files = given.map(([name, text]) => ({ name, arrayBuffer: async () => daa.bytesOf(text).buffer }));
            files.splice(1, 0, { name: "folder", arrayBuffer: async () => { throw new Error("none"); } });
            await fire(screen, "drop", { dataTransfer: { types: ["Files"], files } });
            await settle();
            return [$("fault").textContent, page.name];""", ["none.states", "nothing\n"], ["a.states", text_of(ENCOUNTER)], ["other.states", ""])
        self.assertEqual(told, "folder cannot be read; none.states has no whole moment; line 1 was refused with code 2; not shown: other.states "
                               "(one file of state lines, or recordings, at a time)")
        self.assertEqual(name, "a.states")

    def test_of_two_files_the_one_that_was_opened_later_is_shown(self):
        """Though the first one is read later; so it is with an example."""
        names = on_page("""
            const late = (name, ms) => ({ name, arrayBuffer: () => new Promise((done) => setTimeout(() => done(daa.bytesOf(given[0]).buffer), ms)) });
            const drop = (file) => fire(screen, "drop", { dataTransfer: { types: ["Files"], files: [file] } });
            const name = async () => {
              await new Promise((done) => setTimeout(done, 300));
              await settle();
              return page.name;
            };
            drop(late("first.states", 100));
            drop(late("second.states", 10));
            const names = [await name()];
            drop(late("third.states", 100));
            $("example").value = "all closed, with recoveries";
            await fire($("example"), "change");
            return [...names, await name()];""", text_of(ENCOUNTER))
        self.assertEqual(names, ["second.states", "closed.states"])

    def test_a_text_is_dropped_where_text_is_typed(self):
        """There the browser puts it in; elsewhere nothing comes of it."""
        found = on_page("""
            const found = [];
            for (const event of ["dragover", "drop"]) for (const [types, isField] of [[["text/plain"], true], [["text/plain"], false], [["Files"], true]]) {
              let kept = 0;
              await fire(screen, event, { target: { closest: () => isField || null }, dataTransfer: { types, files: [] }, preventDefault: () => { kept += 1; } });
              found.push(kept);
            }
            return found;""")
        self.assertEqual(found, [0, 1, 1] * 2)

    def test_a_configuration_is_known_by_its_ending_whatever_its_letters(self):
        found = on_page(OPEN + "await open(['C.TOML', given[0]]); return page.views[0].name;", text_of(RECOVERY))
        self.assertEqual(found, "C.TOML")

    def test_the_example_stays_named_where_nothing_else_is_taken(self):
        found = on_page(OPEN + """
            const found = [];
            for (const [name, text] of given) {
              $("example").value = "any";
              await open([name, text]);
              found.push($("example").value);
            }
            return found;""", ["none.states", "nothing"], ["x.toml", "x = 1"], ["a.states", text_of(ENCOUNTER)], ["r.toml", text_of(RECOVERY)])
        self.assertEqual(found, ["any", "any", "", ""])

    def test_many_names_that_are_changed_are_counted(self):
        """And leave room for the aircraft; the ownship's name is written nowhere."""
        text = "name time sx sy sz trk gs vs\nThe_Ownship 0 0 0 1000 0 100 0\n{}The_Ownship 1 0 0 1000 0 100 0\n"
        rows = [f"INTRUDER{number:02} 0 {number} 1 1000 0 100 0\n" for number in range(40)]
        told = on_page(OPEN + "const told = []; for (const it of given) { await open(['a.daa', it]); told.push($('notes').textContent); } return told;",
                       text.format("".join(rows)), text.format("".join(rows[:6])))
        names = [f"INTRUDER{number:02} is written INTRUD{number:02}" for number in range(6)]
        seen = "seen from The_Ownship, which is taken as the ownship"
        self.assertEqual(told, ["; ".join([seen, *names[:5], "35 more names are written otherwise"]), "; ".join([seen, *names])])

    def test_a_drop_without_a_file_changes_nothing(self):
        """As one of a piece of text."""
        found = on_page(OPEN + """
            await open(["none.states", "nothing"]);
            $("example").value = "any";
            await open();
            return [$("fault").textContent, $("example").value];""")
        self.assertEqual(found, ["none.states has no whole moment; line 1 was refused with code 2", "any"])

    def test_many_refused_lines_are_counted(self):
        """And leave room for the aircraft."""
        told, *styles, after = on_page(OPEN + """
            await open(["many.states", given[0]]);
            const found = [$("notes").textContent, $("notes").className];
            await fire($("forward"), "click");
            await settle();
            found.push($("notes").className);
            await open(["none.states", given[1]]);
            return [...found, $("notes").textContent];""", "nothing\n" * 1000 + text_of(ENCOUNTER), text_of(ENCOUNTER))
        self.assertEqual((styles, after), (["problem", "quiet"], ""))
        self.assertEqual(told, "many.states: 1000 lines were refused; " + "".join(f"line {line} was refused with code 2; " for line in range(1, 6))
                         + "995 more were refused before this moment")

    def test_the_ownship_is_chosen_in_a_recording_alone(self):
        """In the one that is shown, whatever is refused after it."""
        files = (("none.daa", "name time\n"), ("a.daa", text_of(os.path.join(EXAMPLES, "recording.daa"))), ("none.states", "nothing\n"),
                 ("a.states", text_of(ENCOUNTER)), ("none.daa", "name time\n"))
        hidden = on_page(OPEN + "const hidden = []; for (const it of given) { await open(it); hidden.push($('own-label').hidden); } return hidden;", *files)
        self.assertEqual(hidden, [True, False, False, True, True])

    def test_the_ownship_that_is_chosen_is_named(self):
        names = on_page(OPEN + """
            await open(["a.daa", given[0]]);
            const names = [$("own").value];
            await fire($("own"), "change", { target: { value: "Intruder1" } });
            return [...names, $("own").value];""", text_of(os.path.join(EXAMPLES, "recording.daa")))
        self.assertEqual(names, ["Ownship", "Intruder1"])

    def test_the_ownship_that_is_shown_stays_named_where_another_one_has_no_moment(self):
        """HIGH flies at 70000 feet, where no ownship is."""
        text = "name time sx sy sz trk gs vs\n" + "".join(f"own {time} 0 0 1000 0 100 0\nHIGH {time} 1 0 70000 0 100 0\n" for time in (0, 1))
        found = on_page(OPEN + """
            await open(["a.daa", given[0]]);
            $("own").value = "HIGH";
            await fire($("own"), "change");
            await settle();
            return [page.current.own.alt, $("own").value, $("fault").textContent];""", text)
        self.assertEqual(found, [1000, "own", "a.daa: no moment is left; left out: 2 moments whose ownship is out of range"])

    def test_files_that_are_dropped_and_the_one_that_is_saved(self):
        """A configuration counts for states that come before it; it is saved as it was edited."""
        edited = "# edited\n" + text_of(RECOVERY)
        report, saved = on_page("""
            const files = given.slice(0, 2).map(([name, text]) => ({ name, arrayBuffer: async () => daa.bytesOf(text).buffer }));
            await fire(screen, "drop", { dataTransfer: { types: ["Files"], files } });
            await settle();
            const report = page.views[0].said.text;
            $("toml").value = given[2];
            await fire($("toml"), "input");
            await fire($("save-config"), "click");
            return [report, await Promise.all(saved.map(async ([name, blob]) => [name, await blob.text()]))];""",
            ["a.states", text_of(os.path.join(EXAMPLES, "closed.states"))], ["b.toml", text_of(RECOVERY)], edited)
        self.assertEqual(report, replayed(RECOVERY, bytes_of(os.path.join(EXAMPLES, "closed.states"))))
        self.assertEqual(saved, [["configuration.toml", edited]])
