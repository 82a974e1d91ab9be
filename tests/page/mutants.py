"""Wrong pages: each is the page with one bug, and the test that is named must fail on it. They are tried in parts, test_mutants_1 and so on."""
import importlib
import io
import os
import shutil
import tempfile
import unittest

import browser
import page_test
from browser import HAS_BROWSER, HOW
from page_test import PageTest
from shared import Page, text_of

PARTS = 4  # so many modules try them, which may run side by side
SOON = 15  # seconds after which what a wrong page does not come to counts as a failure of it

# The bug, the file, the text that is there once, what stands in its place, and the test.
MUTANTS = [
    ("bands of level 3 are drawn as 2", "compass.js", "upto: band.upto + step / 2, level: band.level }));",
     "upto: band.upto + step / 2, level: Math.min(band.level, 2) }));", "test_shown.Shown.test_each_moment_of_the_encounter"),
    ("why there is no moment is told of the wrong one", "time.js", "moments.silence(index), index + 1", "moments.silence(0), index + 1",
     "test_silence.Silence.test_why_there_is_no_moment"),
    ("that a gap has a cause makes a moment incomplete", "time.js", "return [state.moments.fault(index), state.alone,", "return [state.moments.fault(index), silenceOf(index), state.alone,",
     "test_silence.Silence.test_why_there_is_no_moment"),
    ("symbols show no level", "draw.js", 'set("data-level", level);', 'set("data-level", level && 1);',
     "test_shown.Shown.test_each_moment_of_the_encounter"),
    ("two speeds are swapped", "core.js", '"alt", "vx", "vy", "vs", "age"]', '"alt", "vy", "vx", "vs", "age"]',
     "test_shown.Shown.test_each_moment_of_the_encounter"),
    ("the answers on both sides are swapped", "words.js", "const { lower, upper } = said.resolve[kind];",
     "const { lower: upper, upper: lower } = said.resolve[kind];", "test_shown.Shown.test_each_moment_of_the_encounter"),
    ("a level has its colour alone, and no pattern", "art.js", "(level ? `url(#level${level})`", "(level ? `var(--l${level}-fill)`",
     "test_shown.Shown.test_a_level_is_told_by_colour_by_pattern_and_by_number"),
    ("two models are swapped", "core.js", '"tcpa", "tau", "tep"]', '"tcpa", "tep", "tau"]',
     "test_configured.Configured.test_a_levels_model_counts_at_once"),
    ("each kind shows the last time of speeds", "words.js", "const last = said.last[kind];", "const last = said.last.gs;",
     "test_shown.Shown.test_last_times_are_shown"),
    ("the key of last times stands elsewhere among the numbers", "core.js", '...AFTER_RECOVERY, "count"', '"count", ...AFTER_RECOVERY',
     "test_configured.Configured.test_last_times_count_at_once"),
    ("ages are left out", "core.js", "view.setInt32(at + ID_SIZE + 4 * i, one[name], LITTLE_ENDIAN)",
     'view.setInt32(at + ID_SIZE + 4 * i, name === "age" ? 0 : one[name], LITTLE_ENDIAN)', "test_moved.Moved.test_an_old_report_is_flown_on"),
    ("a drag moves east alone", "hands.js", 'one.y = within(to.y - (vy * age) / 36, "y");', "",
     "test_moved.Moved.test_an_aircraft_is_dragged"),
    ("what is taken back stays changed", "time.js", "else state.edits.delete(index);", "", "test_moved.Moved.test_an_aircraft_is_dragged"),
    ("a fault of a number has another code", "toml.js", "add(5, `${where}${key} = ", "add(6, `${where}${key} = ",
     "test_configured.Configured.test_a_fault_has_its_code_its_key_and_its_line"),
    ("a link loses the second configuration", "page.js", "place) => configure(place, String(toml)", "place) => configure(0, String(toml)",
     "test_opened.Opened.test_a_link_holds_the_whole_moment"),
    ("a link holds an edited text that is refused", "page.js", "({ name, taken }) => ({ name, toml: taken })", "({ name, toml }) => ({ name, toml })",
     "test_loaded.Loaded.test_a_link_holds_the_configuration_that_counts"),
    ("a refused configuration gives its name", "page.js", "    view.refusal = null;\n", "    Object.assign(view, { name, refusal: null });\n",
     "test_loaded.Loaded.test_a_refused_configuration_gives_no_name"),
    ("keys call two aircraft by one name", "places.js", "(one.id && traffic.find(({ id }) => id === one.id) === one ?", "(one.id ?",
     "test_used.Used.test_a_name_is_written_past_that_of_another_aircraft"),
    ("late reports of a recording count as new", "recording.js", "const age = Math.min(wholeSecond(late), MOST_AGE);", "const age = 0;",
     "test_opened.Opened.test_a_recording_seen_from_each_of_its_aircraft"),
    ("playing has a pace of its own", "time.js", '* Number($("speed").value);', "* 20;",
     "test_timed.Timed.test_playing_keeps_the_recordings_own_times"),
    ("old bands stay while a long moment is decided", "state.js", "(isAnswered(view) && !state.stale ? view.said : null)", "view.said",
     "test_timed.Timed.test_no_old_band_is_shown_while_a_moment_is_decided"),
    ("what is not decided yet is clear in the strip", "strip.js", "this.fill(paints.unknown,", "this.fill(paints.clear,",
     "test_drawn.Strip.test_nothing_is_clear_that_is_not_decided"),
    ("a column is drawn before it is decided", "strip.js", "if (!notes.has(index)) return null;", "if (!notes.has(index)) continue;",
     "test_drawn.Strip.test_nothing_is_clear_that_is_not_decided"),
    ("a column of the strip covers a gap", "strip.js", "&& times[last + 1] - times[last] <= most) last += 1;", ") last += 1;",
     "test_module.Module.test_a_column_of_the_strip_covers_no_gap"),
    ("differences are marked in all moments", "strip.js", "one.answers !== other.answers ||", "true ||", "test_drawn.Strip.test_where_two_configurations_differ_is_marked"),
    ("an incomplete moment is not marked in the strip", "strip.js", "if (lacksSome(column, model.lacks))", "if (false)",
     "test_drawn.Strip.test_incomplete_moments_are_hatched_at_the_top"),
    ("a change is lost where another moment is shown", "time.js", "current: edit ? copy(edit) : state.moments.at(index)", "current: state.moments.at(index)",
     "test_time.Time.test_what_was_changed_stays_with_its_moment_and_is_marked"),
    ("each point of a drag is a change", "time.js", "if (!now || now !== gesture) remember", "remember", "test_time.Time.test_changes_are_undone_and_made_again"),
    ("the next alert is each moment that alerts", "survey.js", "greatest(index) > (index ? greatest(index - 1) : 0)", "greatest(index) > 0",
     "test_time.Time.test_the_next_alert_is_where_one_begins_or_becomes_greater"),
    ("the clock's hours are minutes", "time.js", "two((time % DAY) / 3600)", "two((time % DAY) / 60)", "test_time.Time.test_the_clock"),
    ("a line between two pieces is lost", "core.js", "this.rest = bytes.slice(Math.min(start, bytes.length)).slice(0, LONGEST_LINE);", "this.rest = new Uint8Array(0);",
     "test_time.Time.test_a_long_file_is_read_in_pieces_by_the_page_itself_where_there_is_no_worker"),
    ("a long file is shown at its end", "load.js", "if (!isBegun) begin(", "if (share === null) begin(", "test_shown.Shown.test_a_long_file_is_read_by_a_worker"),
    ("an edit hides what the moment lacks", "state.js", "[...told, lack, ", '[...told, state.edited ? "" : lack, ',
     "test_loaded.Loaded.test_what_a_moment_lacks_is_told_whatever_is_changed_by_hand"),
    ("a link loses what its moment lacks", "page.js", " lacks, configs,", " configs,", "test_loaded.Loaded.test_a_link_tells_what_its_moment_lacks"),
    ("who is left out of a recording is told of no moment", "recording.js", "const comments = causes.slice(0, MOST_LACKS)", "const comments = causes.slice(0, 0)",
     "test_loaded.Loaded.test_an_aircraft_that_is_left_out_of_a_recording_is_told_in_its_moments"),
    ("a tooltip is as old as the symbol", "draw.js", "if (it.daaInside === whole) return;\n    it.daaInside = whole;",
     "if (it.daaInside === inside) return;\n    it.daaInside = inside;", "test_used.Used.test_a_tooltip_is_not_that_of_an_older_state"),
    ("what comes within the first second is now", "places.js", "first === 0 && now >= level;", "first === 0;",
     "test_used.Used.test_what_comes_within_the_first_second_is_not_told_as_now"),
    ("a worker that fails is waited for", "desk.js", "worker.onerror = failed;", "",
     "test_asked.Asked.test_the_page_answers_in_place_of_a_worker_that_fails"),
    ("a tape beyond its candidates is nearly as light as clear", "tapes.js", 'fill="var(--unknown)" stroke="var(--line)"/>`;\n    for',
     'fill="var(--disc)" stroke="var(--line)"/>`;\n    for', "test_drawn.Drawn.test_a_tape_beyond_its_candidates_is_not_clear"),
    ("an aircraft without an answer has no alert", "aircraft.js", "    if (unknown) return UNKNOWN_SHAPE;\n", "",
     "test_asked.Asked.test_nothing_of_a_refused_moment_looks_clear"),
    ("the sentence is that of what was held before", "panel.js", '    setText($("summary"), under', '    if (!state.held) setText($("summary"), under',
     "test_used.Used.test_the_sentence_is_that_of_what_is_held"),
    ("what alerts later is drawn under the rest", "draw.js", "group.insertBefore(it, next);", "",
     "test_used.Used.test_what_alerts_is_drawn_over_the_rest"),
    ("symbols have one colour", "aircraft.js", "const fill = `var(--l${level}-fill)`;", "const fill = `var(--l1-fill)`;",
     "test_drawn.Drawn.test_symbols_and_labels"),
    ("a fault stays when it is past", "state.js", "view.fault = answer.text !== undefined ?", "if (answer.text === undefined) view.fault = answer.text !== undefined ?",
     "test_asked.Asked.test_nothing_of_a_refused_moment_looks_clear"),
    ("a stopped worker answers what was asked later", "desk.js", "if (!this.busy || this.busy.number !== number) return;", "if (!this.busy) return;",
     "test_asked.Asked.test_a_stopped_worker_answers_no_later_question"),
    ("the page itself decides a long moment", "desk.js", "const worker = new Worker(address);", 'throw new Error("none");',
     "test_timed.Timed.test_a_long_moment_leaves_the_page_alive"),
    ("after a trap the instance is not made anew", "core.js", "        this.renew();\n        throw", "        throw",
     "test_timed.Broken.test_after_a_trap_the_instance_is_made_anew"),
    ("labels keep out of nothing's way", "labels.js", "return this.boxes.reduce((sum, other) => sum + overlap(box, other), 0);", "return 0;",
     "test_layout.Layout.test_twenty_aircraft"),
    ("labels stand on the ring", "labels.js", "> this.disc.radius);", "> this.disc.radius + 60);",
     "test_layout.Layout.test_twenty_aircraft"),
    ("two displays push the panel out of the window", "style.css", '"displays displays" minmax(0, 1fr)', '"displays displays" 80vh',
     "test_layout.Layout.test_two_displays"),
    ("a long answer is cut", "art.js", "Math.min(font, (font * room) / widthOf(words, font))", "font",
     "test_layout.Layout.test_the_encounter"),
    ("paper is as dark as the screen", "style.css", "  :root, :root[data-theme] { color-scheme: light; }\n", "",
     "test_everyone.Everyone.test_on_paper"),
    ("a handle has no name for a screen reader", "draw.js", 'set("aria-label", label);', "",
     "test_everyone.Everyone.test_by_screen_reader"),
    ("a last time of 0 vanishes", "words.js", """else if (last !== undefined) more.push(["last", `a turn""", """else if (last) more.push(["last", `a turn""",
     "test_drawn.Ends.test_the_most_urgent_last_time_is_shown"),
    ("two aircraft on both sides of the 180th meridian are far from each other", "ellipsoid.js", "shortWay(aircraft.lon - own.lon)",
     "aircraft.lon - own.lon", "test_recordings.Recordings.test_two_aircraft_on_both_sides_of_the_180th_meridian_are_near"),
    ("a tape is painted past its greatest candidate", "tapes.js", "const last = grid.min + Math.floor((grid.max - grid.min) / grid.step) * grid.step;",
     "const last = grid.max;", "test_drawn.Ends.test_a_tape_ends_at_its_greatest_candidate"),
    ("an answer at a tape's end is beyond it", "tapes.js", 'value > s.high ? " ▲"', 'value >= s.high ? " ▲"',
     "test_drawn.Ends.test_answers_at_the_very_ends_of_a_tape_are_not_beyond_it"),
    ("an aircraft on the ring is within", "aircraft.js", "const off = far > g.radius - 10;", "const off = far > g.radius;",
     "test_drawn.Ends.test_an_aircraft_on_the_ring_is_out_of_range"),
    ("the strip goes by the least step", "strip.js", "steps[Math.floor(steps.length / 2)]", "steps[0]",
     "test_module.Module.test_the_last_column_of_the_strip_is_as_long_as_the_median_step"),
    ("a range fits one aircraft more", "state.js", "Math.ceil(far.length * 0.85) - 1", "Math.ceil(far.length * 0.85)",
     "test_used.Used.test_a_range_fits_17_of_20_aircraft"),
    ("an altitude is dragged by 100 feet", "hands.js", "alt: 50 }[kind]", "alt: 100 }[kind]", "test_used.Used.test_an_altitude_is_dragged_in_steps_of_50_feet"),
    ("an old report looks new", "places.js", "const OLD = 5;", "const OLD = 61;", "test_drawn.Ends.test_an_old_report_looks_old"),
    ("the rings of the range are dashed too", "compass.js", """fill="none" stroke="var(--line)"/>`;""",
     """fill="none" stroke="var(--line)" stroke-dasharray="3 5"/>`;""", "test_drawn.Ends.test_the_dashed_circle_is_the_threshold_of_the_corrective_level"),
    ("an incomplete moment may be kept", "panel.js", " && !lack && ", " && ",
     "test_unknown.Incomplete.test_the_sentence_begins_with_what_is_missing_and_never_says_that_the_flight_may_be_kept"),
    ("the last of two files wins in silence", "load.js", "new RecordingReading(files, {", "new RecordingReading(files.slice(-1), {",
     "test_unknown.Several.test_they_are_one_recording_whatever_their_order"),
    ("a link grows without a bound", "link.js", "if (count <= most) continue;", "continue;", "test_unknown.Linked.test_a_link_that_grows_is_refused_early"),
    ("a copied link stands in the address", "page.js", 'return "Copied"; // the address', 'location.hash = packed;\n      return "Copied"; // the address',
     "test_unknown.Linked.test_a_copied_link_leaves_the_address"),
    ("the range follows nothing", "state.js", "if (!far.length) return;", "return;", "test_sight.Sight.test_the_range_follows_what_alerts_and_changes_rarely"),
    ("the range follows each small change", "state.js", "least <= look.range / 2", "least < look.range",
     "test_sight.Sight.test_the_range_follows_what_alerts_and_changes_rarely"),
    ("a chosen range is not fixed", "state.js", 'if (what === "near" || what === "wide" || what === "fit") look.auto = false;', "",
     "test_sight.Sight.test_a_range_that_is_chosen_is_fixed_until_it_may_follow_again"),
    ("the ownship is drawn over what alerts", "handles.js", "...ownHandles(view, model), ...made(rest.filter(isLoud)),", "...made(rest.filter(isLoud)), ...ownHandles(view, model),",
     "test_sight.Sight.test_what_alerts_is_in_the_range_and_over_the_ownship"),
    ("keys mean nothing at a list", "hands.js", 'const TYPES = "textarea,', 'const TYPES = "select, textarea,',
     "test_moved.Obeyed.test_keys_count_wherever_the_focus_is_but_where_letters_are_typed"),
    ("a button's plus is farther", "state.js", '${button("wide", "−", "Greater range")}<span data-is="range"></span>${button("near", "+", "Smaller range")}',
     '${button("near", "−", "Smaller range")}<span data-is="range"></span>${button("wide", "+", "Greater range")}', "test_moved.Obeyed.test_plus_means_one_thing"),
    ("a wheel goes by events", "hands.js", "const NOTCH = 80;", "const NOTCH = 1;", "test_used.Used.test_a_wheel_that_turns_sideways_keeps_the_range"),
    ("the tabulator goes to each of 64 aircraft", "draw.js", 'isReached ? "0" : "-1"', '"0"', "test_moved.Obeyed.test_play_is_reached_in_a_few_steps_with_64_aircraft"),
    ("a removed aircraft takes the focus with it", "hands.js", 'if (event.key === "Delete") focusOn(figure, "p:");', "",
     "test_moved.Obeyed.test_a_removed_aircraft_leaves_the_focus_somewhere"),
    ("a slider is told beyond its greatest value", "handles.js", "least: 0, most: 566", "least: 0, most: 5", "test_moved.Obeyed.test_sliders_say_true_numbers"),
    ("forced colours show nothing chosen", "style.css", "@media (forced-colors: active) {", "@media (forced-colors: none) {",
     "test_moved.Obeyed.test_forced_colours_show_what_is_chosen"),
    ("labels cover answers", "aircraft.js", "\n      ...answerBoxes(view, model)];", "];", "test_sight.Answers.test_a_label_beside_an_answer_stands_elsewhere"),
    ("an answer is as good to cover as another text", "compass.js", "const ANSWER = 20;", "const ANSWER = 1;",
     "test_sight.Answers.test_an_answer_costs_more_than_other_texts"),
    ("a long strip is drawn at one stretch", "strip.js", "this.isCut = performance.now() > end;", "this.isCut = false;",
     "test_time.Time.test_a_long_strip_is_drawn_in_parts"),
    ("a strip that was cut is left", "time.js", "if (strip.isCut && !goesOn) {", "if (false) {", "test_time.Time.test_a_long_strip_is_drawn_in_parts"),
    ("the axis is drawn anew with each piece that is read", "time.js", "while (state.reading && shown * GROWTH <= count)", "while (state.reading && shown < count)",
     "test_time.Time.test_the_axis_of_a_recording_that_is_read_grows_by_steps"),
    ("an answer that is none is explained as open", "words.js", '{ open: "open", none: "none" }[style]', '{ open: "open", none: "open" }[style]',
     "test_first.Words.test_each_answer_is_explained_where_it_stands"),
    ("an angle has as many digits as it needs", "art.js", '.padStart(3, "0")}°`', "}°`", "test_first.Words.test_all_angles_have_three_digits_and_all_numbers_one_minus"),
    ("a minus is a hyphen", "art.js", 'String(value).replace("-", "−")', "String(value)", "test_first.Words.test_all_angles_have_three_digits_and_all_numbers_one_minus"),
    ("nobody is told what was taken", "load.js", '$("taken").hidden = !taken.length;', '$("taken").hidden = true;',
     "test_first.Taken.test_what_was_taken_of_a_recording_is_told_in_the_words_of_the_tool"),
    ("a click on a word explains nothing", "meanings.js", "explain(pressed.word, pressed);", "", "test_everyone.Everyone.test_a_word_is_explained_where_it_is_clicked"),
    ("paths are drawn that nobody asked for", "profile.js", 'if (!view.paths) return "";', "", "test_profile.Profile.test_paths_are_drawn_on_request"),
    ("the closest approach is that of old reports", "profile.js", "const age = one.age || 0;", "const age = 0;",
     "test_profile.Profile.test_the_closest_approach_is_the_least_distance_of_straight_flight"),
    ("aircraft stand beside the tape where they reported", "profile.js", "const height = heightOf(one, one.age);", "const height = heightOf(one, 0);",
     "test_profile.Profile.test_aircraft_stand_beside_the_altitude_tape_at_their_heights"),
    ("from the side the volume is as wide as dthr wherever one passes", "profile.js", "dthr * dthr - first.closest.passing ** 2", "dthr * dthr",
     "test_profile.Profile.test_the_side_shows_heights_over_the_distance_to_the_closest_approach"),
    ("a saved report is of the recording without what was changed", "sheet.js", "Moments.of(Array.from({ length: count }, (_, i) => shownAt(first + i)))",
     "Moments.of(Array.from({ length: count }, (_, i) => moments.at(first + i)))", "test_kept.Whole.test_states_and_report_of_the_whole_recording"),
    ("a saved recording loses why there is no moment", "sheet.js", "moment.silence = state.moments.silence(first + i);", "", "test_kept.Whole.test_comments_stay"),
    ("the sheet has the digest of a name", "sheet.js", "SHA-256 ${digestIn(taken)}</li>", "SHA-256 ${digestIn(name)}</li>", "test_kept.Sheet.test_a_sheet_can_be_made_again"),
    ("the sheet is not printed", "style.css", "#sheet { display: block; font-size", "#sheet { font-size", "test_everyone.Everyone.test_on_paper"),
    ("a flight turns on past its track", "flight.js", "wrap(track + Math.min(most, right))", "wrap(track + most)", "test_whatif.Flown.test_a_flight_is_that_of_the_definition"),
    ("on the way to an altitude the present vertical speed counts", "flight.js", "vs: height(k + 1) - height(k) };", "vs };",
     "test_whatif.Flown.test_a_flight_is_that_of_the_definition"),
    ("what is flown begins at the moment as it was recorded", "whatif.js", "({ ...shownAt(at), silence", "({ ...moments.at(at), silence",
     "test_whatif.Flown.test_the_ownship_flies_the_answer_and_the_traffic_goes_on"),
    ("what is flown stands in both rows", "whatif.js", "outcomeOf(recorded.moments, recorded.notes, from, upto)", "outcomeOf(moments, survey.notes, from, upto)",
     "test_whatif.Flown.test_what_came_of_it_stands_beside_what_was_recorded"),
    ("the traffic of a later moment stays in its plane", "flight.js", "const traffic = isFirst || !from || !to ?", "const traffic = from || !to ?",
     "test_whatif.Flown.test_on_the_globe_the_traffic_is_round_the_ownship_that_flies"),
    ("a plane on the way is turned as the first one", "ellipsoid.js", "turn: nearest(angle, 1000) };", "turn };",
     "test_whatif.Flown.test_on_the_globe_the_traffic_is_round_the_ownship_that_flies"),
    ("a lesson offers another answer than it tells of", "whatif.js", "(said && followed(said)) ||", "", "test_whatif.Lessons.test_each_lesson_says_what_is_so"),
    ("a field of a class is misspelt", "flight.js", "for (; this.second < seconds; this.second++)", "for (; this.secand < seconds; this.second++)",
     "test_types.Types.test_each_script_is_checked"),
    ("a name is taken for an age", "profile.js", "const age = one.age || 0;", "const age = one.nage || 0;", "test_types.Types.test_each_script_is_checked"),
    ("all is painted at one stretch", "state.js", "const AT_ONCE = 15;", "const AT_ONCE = Infinity;", "test_alive.Parts.test_what_takes_long_is_painted_in_parts"),
    ("what is painted in part is settled", "state.js", "settled = !due && ", "settled = ", "test_alive.Parts.test_what_takes_long_is_painted_in_parts"),
    ("what is left is left while moments change", "state.js", "if (isBehind) paintPart();", "", "test_alive.Parts.test_each_part_has_its_turn_however_fast_moments_change"),
    ("labels look for a place until all were tried", "labels.js", "const MOST_TRIED = 3000;", "const MOST_TRIED = Infinity;",
     "test_alive.Parts.test_labels_look_for_a_place_for_a_while_only"),
    ("the page itself reads a long file", "load.js", "const LARGE = 50000;", "const LARGE = Infinity;",
     "test_tasks.Tasks.test_no_task_takes_longer_than_a_tenth_of_a_second"),
    ("what holds more than a link may is packed", "link.js", "if (!bytes || held.length > MOST_HELD)", "if (held.length > MOST_HELD)",
     "test_types.Types.test_each_script_is_checked"),
    ("a slider's least value is written with a minus", "handles.js", "least: told(LIMITS[kind][0]),", "least: shownValue(kind, LIMITS[kind][0]),",
     "test_moved.Obeyed.test_sliders_say_true_numbers"),
    ("a file names a network", "index.html", '<script src="page.js">', '<script src="https://example.org/page.js">',
     "test_files.Files.test_no_file_names_a_network_address"),
]


def outcome(test):
    """The result of one test."""
    suite = unittest.defaultTestLoader.loadTestsFromName(test)
    return unittest.TextTestRunner(stream=io.StringIO(), verbosity=0).run(suite)


def of_part(part):
    """The wrong pages of a part, 1 to PARTS: every fourth, so that those of one test are spread."""
    return MUTANTS[part - 1::PARTS]


@unittest.skipUnless(HAS_BROWSER, HOW)
class WrongPages(unittest.TestCase):
    """Each wrong page of a part fails. A module of a part has a class of it that names the part."""

    part = None

    def setUp(self):
        page_test.setUpModule()
        self.addCleanup(PageTest.browser.wait_at_most, browser.LONG)
        PageTest.browser.wait_at_most(SOON)

    def check_each(self):
        """The named test fails on the wrong page, and not for want of what it needs; on the page itself it passes elsewhere."""
        right = Page.folder
        self.addCleanup(setattr, Page, "folder", right)
        for bug, file, old, new, test in of_part(self.part):
            with self.subTest(bug), tempfile.TemporaryDirectory() as folder:
                Page.folder = os.path.join(folder, "page")
                shutil.copytree(right, Page.folder)
                text = text_of(os.path.join(right, file))
                self.assertEqual(text.count(old), 1, f"{file} has this text once: {old}")
                with open(os.path.join(Page.folder, file), "w", encoding="utf-8") as wrong:
                    wrong.write(text.replace(old, new))
                result = outcome(test)
                self.assertEqual((result.testsRun, len(result.skipped)), (1, 0))
                self.assertTrue(result.failures or result.errors, f"{test} passes on a page in which {bug}")


def is_there(test):
    module, case, name = test.split(".")
    return hasattr(getattr(importlib.import_module(module), case, None), name)
