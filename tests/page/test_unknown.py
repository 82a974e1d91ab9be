"""Where nothing is known the page says so: incomplete moments, old reports, recordings without traffic, several files at once."""
import os
import re
import subprocess
import tempfile
import unittest

from nodes import HOW, NODE, OPEN, in_node, on_page
from shared import TOP, moments_in

ALONE = "moment {}\nown 0 0 10000 0 3600 0\n{}end\n"
FAR = "traffic FAR 0 90000 10000 0 0 0\n"  # which nothing is alerted of
LACK = "# lacks LOST no report for 15 s, 3.2 NM away\n"
SENTENCE = OPEN + """
    const sentences = async (text) => {
      await open(["a.states", text]);
      const found = [];
      for (let index = 0; index < page.moments.length; index++) {
        found.push([$("summary").textContent, $("notes").className]);
        await fire($("forward"), "click");
        await settle();
      }
      return found;
    };"""
HEAD = "name,time,sx,sy,sz,trk,gs,vs\n"


def rows(name, times, north=0):
    return "".join(f"{name},{time},0,{north},1000,0,100,0\n" for time in times)


@unittest.skipUnless(NODE, HOW)
class Incomplete(unittest.TestCase):
    def test_the_sentence_begins_with_what_is_missing_and_never_says_that_the_flight_may_be_kept(self):
        """By a comment within the moment, by a refused line, and in a moment that has no aircraft; but in one that lacks nothing it does. A
        comment that stands between moments, or is written otherwise, means nothing."""
        texts = (FAR, LACK + FAR, FAR + " # \tlacks * 3 more\r\n", "#lacks LOST x\n# Lacks LOST x\n" + FAR, "traffic TOOLONGID 0 0 0 0 0 0\n" + FAR, "")
        found = on_page(SENTENCE + "return sentences(given[0]);", "".join(LACK + ALONE.format(time, text) for time, text in enumerate(texts)))
        whole = ["No alert. The present flight may be kept.", "quiet"]
        self.assertEqual(found, [whole, ["Incomplete: without LOST: no report for 15 s, 3.2 NM away. None of the known aircraft alerts.", "problem"],
                                 ["Incomplete: without 3 more. None of the known aircraft alerts.", "problem"], whole,
                                 ["Incomplete: line 28 was refused with code 5. None of the known aircraft alerts.", "problem"],
                                 ["No other aircraft is known.", "quiet"]])

    def test_alerts_stand_behind_what_is_missing(self):
        (told, _), = on_page(SENTENCE + "return sentences(given[0]);", ALONE.format(0, LACK + "traffic A 0 1000 10000 0 0 0\n"))
        self.assertTrue(told.startswith("Incomplete: without LOST: no report for 15 s, 3.2 NM away. Alerts: A level 3 "), told)

    def test_what_is_missing_goes_with_copied_lines_and_links(self):
        copied, linked = on_page(SENTENCE + """
            await sentences(given[0]);
            await fire($("copy"), "click");
            await fire($("link"), "click");
            const copied = await saved[0][1].text();
            $("example").value = "all closed, with recoveries";
            await fire($("example"), "change");
            page.hash = "";
            await fire(screen, "hashchange");
            await settle();
            return [copied, $("summary").textContent];""", ALONE.format(0, FAR + LACK))
        self.assertEqual([moment.lacks for _, moment in moments_in(copied.encode())], [[("LOST", "no report for 15 s, 3.2 NM away")]])
        self.assertTrue(linked.startswith("Incomplete: without LOST: no report for 15 s, 3.2 NM away. "), linked)

    def test_how_old_a_report_may_be_is_set(self):
        """A's report is 12 seconds old at second 12: it is there where 15 seconds are asked for, and lacks where 10 are or 0; as the tool does."""
        text = HEAD + rows("own", (0, 12)) + rows("A", (0,), 1)
        found = on_page(SENTENCE + """
            await open(["a.csv", given[0]]);
            const found = [];
            for (const oldest of ["10", "15", "0", "61"]) {
              $("oldest").value = oldest;
              await fire($("oldest"), "change");
              await settle();
              await fire($("forward"), "click");
              await settle();
              found.push([$("oldest").value, daa.stateLines(page.moments), $("notes").className, $("own").value]);
            }
            return found;""", text)
        with tempfile.NamedTemporaryFile("w", suffix=".csv") as file:
            file.write(text)
            file.flush()
            for (oldest, states, style, own), asked in zip(found, (10, 15, 0, 60), strict=True):
                wanted = subprocess.run([os.path.join(TOP, "tools", "from_daa"), "--oldest", str(asked), file.name], capture_output=True, text=True).stdout
                wanted = wanted.replace("# ownship own\n", "")  # which belongs to no moment
                self.assertEqual((str(oldest), states, style, own), (str(asked), wanted, "problem" if asked < 12 else "quiet", "own"))

    def test_a_recording_whose_traffic_has_other_times_says_so_first(self):
        """By what shift of whole hours they would meet, or where none would by the least one; and every moment is incomplete."""
        own = rows("own", (100, 110))
        for others, told in ((rows("A", (7300, 7310)), "theirs are from 7300 to 7310 s, and 7200 s less would bring them there"),
                             (rows("A", (30, 31)), "theirs are from 30 to 31 s, and 70 s more would bring them there"),
                             (rows("A", (9000, 9010)), "theirs are from 9000 to 9010 s, and 8900 s less would bring them there")):
            others = others if "70 s" not in told else others.replace(",30,", ",-900,").replace(",31,", ",-890,")
            told = told if "70 s" not in told else "theirs are from -900 to -890 s, and 1000 s more would bring them there"
            notes, style, sentence = on_page(OPEN + """await open(["a.csv", given[0]]);
                return [$("notes").textContent, $("notes").className, $("summary").textContent];""", HEAD + own + others)
            why = f"no report of another aircraft falls into the ownship's time, 100 to 110 s: {told}"
            self.assertTrue(notes.startswith(why), notes)
            self.assertEqual((style, sentence), ("problem", f"Incomplete: {why}. No other aircraft is known."))

    def test_a_recording_of_the_ownship_alone_says_so(self):
        sentence = on_page(OPEN + 'await open(["a.csv", given[0]]); return $("summary").textContent;', HEAD + rows("own", (0, 1)))
        self.assertEqual(sentence, "Incomplete: no other aircraft: the recording has reports of the ownship alone. No other aircraft is known.")

    def test_a_recording_in_which_traffic_comes_late_lacks_nothing_before(self):
        found = in_node([["recording", (HEAD + rows("own", (0, 1, 2)) + rows("A", (2,), 1)).encode(), None]])[0]
        self.assertEqual(found["alone"], "")


@unittest.skipUnless(NODE, HOW)
class Several(unittest.TestCase):
    """Several files at once are one recording, or are told by name."""

    OWN, OTHER = HEAD + rows("Ownship", (0, 1)), "id;tm;sx;sy;sz;trk;gs;vs\n" + rows("A", (0, 1), 1).replace(",", ";")

    def test_they_are_one_recording_whatever_their_order(self):
        for files in ((["own.csv", self.OWN], ["a.csv", self.OTHER]), (["a.csv", self.OTHER], ["own.csv", self.OWN])):
            notes, own, lines, name = on_page(OPEN + """await open(...given);
                return [$("notes").textContent, $("own").value, daa.stateLines(page.moments), page.name];""", *files)
            self.assertEqual(notes, f"seen from Ownship, which is taken as the ownship; 2 files are one recording: {files[0][0]}, {files[1][0]}")
            self.assertEqual((own, name), ("Ownship", f"{files[0][0]}, {files[1][0]}"))
            self.assertEqual([[one.id for one in moment.traffic] for _, moment in moments_in(lines.encode())], [["A"], ["A"]])

    def test_the_first_aircraft_of_one_file_is_the_ownship(self):
        notes = on_page(OPEN + 'await open(["a.csv", given[0]]); return $("notes").textContent;', HEAD + rows("A", (0, 1)) + rows("Ownship", (0, 1)))
        self.assertEqual(notes, "seen from A, which is taken as the ownship")

    def test_files_that_are_no_one_recording_are_refused_by_name(self):
        globe = HEAD.replace("sx,sy", "lat,lon") + rows("B", (0, 1), 7)
        for files, told in ((([["own.csv", self.OWN], ["b.csv", globe]]), "b.csv and own.csv are no one recording: one has latitudes and longitudes, the other places on a plane"),
                            (([["own.csv", self.OWN], ["x.csv", HEAD + "A,0,0\n"]]), "x.csv: no report of an aircraft can be read; line 2: no number for sy: 'A,0,0'")):
            fault, name = on_page(OPEN + 'await open(...given); return [$("fault").textContent, page.name];', *files)
            self.assertEqual((fault, name), (f"{files[0][0]}, {files[1][0]}: {told}", "encounter.states"))

    def test_what_is_not_shown_is_told_by_name(self):
        one, other = ALONE.format(0, FAR), ALONE.format(7, FAR)
        for files, shown, left in ((([["a.states", one], ["b.states", other]]), "a.states", "b.states"),
                                   (([["a.states", one], ["own.csv", self.OWN], ["b.states", other]]), "own.csv", "a.states, b.states")):
            fault, name = on_page(OPEN + 'await open(...given); return [$("fault").textContent, page.name];', *files)
            self.assertEqual((fault, name), (f"not shown: {left} (one file of state lines, or recordings, at a time)", shown))


@unittest.skipUnless(NODE, HOW)
class Linked(unittest.TestCase):
    def test_a_copied_link_leaves_the_address(self):
        """So that what is loaded anew is no single moment; where it cannot be copied it stands in the address, and is no step of the history."""
        copied, hash, told = on_page("""
            let copied = "";
            Object.defineProperty(globalThis, "navigator", { value: { clipboard: { writeText: async (text) => { copied = text; } } } });
            await fire($("link"), "click");
            return [copied, location.hash, $("link").textContent];""")
        self.assertRegex(copied, "^file:///page/index.html#m=[-_A-Za-z0-9]+$")
        self.assertEqual((hash, told), ("", "Copied"))
        hash, told = on_page('await fire($("link"), "click"); return [location.hash, $("link").textContent];')
        self.assertTrue(hash.startswith("#m=") and told == "In the address line", (hash, told))

    def test_what_comes_from_a_link_says_that_it_is_one_moment(self):
        notes = on_page("""await fire($("link"), "click");
            for (const time of [1, 2]) {
              page.hash = "";
              await fire(screen, "hashchange");
              await settle();
              await fire($("link"), "click");
            }
            return $("notes").textContent;""")
        self.assertEqual(notes, "opened from a link, which holds this one moment")

    def test_a_link_that_grows_is_refused_early(self):
        """Of 50 million letters that a short link holds, few are unpacked; one of more letters than a link may have is not read at all."""
        found, read = on_page("""
            const Real = DecompressionStream, found = [];
            let read = 0;
            globalThis.DecompressionStream = class {
              constructor(form) {
                const real = new Real(form);
                this.writable = real.writable;
                this.readable = real.readable.pipeThrough(new TransformStream({ transform: (part, to) => { read += part.length; to.enqueue(part); } }));
              }
            };
            const flow = new Blob([JSON.stringify("a".repeat(50000000))]).stream().pipeThrough(new CompressionStream("deflate-raw"));
            const bytes = new Uint8Array(await new Response(flow).arrayBuffer());
            const link = `#m=${btoa(Array.from(bytes, (byte) => String.fromCharCode(byte)).join("")).replaceAll("+", "-").replaceAll("/", "_")}`;
            found.push(link.length < 100000, await daa.unpack(link));
            const before = read;
            found.push(await daa.unpack("#m=" + "A".repeat(400001)), read - before, await daa.pack("a".repeat(2000000)), await daa.unpack(`#${await daa.pack("a".repeat(900000))}`));
            return [found.map((it) => (it && it.length) ?? it), before];""")
        self.assertEqual(found, [True, None, None, 0, None, 900000])
        self.assertLess(read, 4000000)
