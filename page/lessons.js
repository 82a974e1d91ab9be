// @ts-check
/* A small library of encounters for teaching: each with a question, what the answers mean, and what happens when one is followed. The flights are
 * straight, except where `turns` says otherwise. No page is needed. */
"use strict";
/** @type {(root: Root) => void} */
function daaLessons(root) {
  const RADIANS = Math.PI / 180;
  const OWN = { x: 0, y: 0, alt: 10000, trk: 0, gs: 3000, vs: 0 };

  /** An aircraft: where it is (NM east and north), its altitude (ft), track, ground speed (kt), vertical speed (ft/min). What it turns to from a
   *  second on it turns to by three degrees a second.
   *  @type {(id: string, place: Pair, alt: number, trk: number, knots: number, vs?: number, turns?: LessonAircraft["turns"]) => LessonAircraft} */
  const aircraft = (id, [east, north], alt, trk, knots, vs = 0, turns = null) => ({ id, east, north, alt, trk, knots, vs, turns });

  /** @type {Record<string, Lesson>} */
  const LESSONS = {
    "lesson: head-on": {
      config: "three_levels", seconds: 120, at: 15, follow: ["track", "lower"], traffic: [aircraft("HEAD", [0.1, 16], 10000, 180, 300)],
      question: "An aircraft comes head-on, a tenth of a mile to the right. On which side is the smaller turn?",
      meaning: "The numbers on the ring are the nearest tracks, left and right, that stay clear of the corrective level. The aircraft passes on "
        + "the right, so the turn to the left is the smaller one. It is small because there is still time for it.",
      followed: "After a turn of 5 degrees the alert is over within seconds, and the two pass 0.68 NM apart: farther than dthr, which is 0.66.",
    },
    "lesson: overtaking": {
      config: "three_levels", seconds: 180, at: 20, follow: ["gs", "lower"], traffic: [aircraft("SLOW", [0, 3], 10000, 0, 180)],
      question: "You overtake a slower aircraft on its own track. Is a turn the only way to stay clear?",
      meaning: "The tape of ground speeds has an open value too. That value is clear within the lookahead; nothing is said of what comes after.",
      followed: "At the lower speed you still come nearer: the alert stays, and 90 seconds later the volume is violated if you do nothing more. "
        + "An answer holds for its lookahead, so look again before that ends.",
    },
    "lesson: crossing": {
      config: "three_levels", seconds: 120, at: 20, follow: ["track", "upper"], traffic: [aircraft("CROSS", [6, 6], 10000, 270, 300)],
      question: "An aircraft crosses from the right, at your speed and height. What does a turn to the right do, and one to the left?",
      meaning: "Both turns are open and equally large. To the right you pass behind it; to the left you stay in front and see it for longer.",
      followed: "After the turn to the right the alert is over within five seconds, and the aircraft passes 0.75 NM ahead.",
    },
    "lesson: climbing through": {
      config: "three_levels", seconds: 140, at: 30, follow: ["alt", "upper"], traffic: [aircraft("CLIMB", [0, 16], 7800, 180, 300, 1500)],
      question: "An aircraft far below climbs toward your altitude while it comes head-on. Is it enough to stay level, or to descend?",
      meaning: "No lower altitude is open, because you would meet the aircraft on the way down. A higher one is, because you are there before it.",
      followed: "At 11000 ft you are more than 450 ft above the aircraft when it passes right below you.",
    },
    "lesson: a late turn": {
      config: "three_levels", seconds: 140, at: 56, follow: ["track", "lower"],
      traffic: [aircraft("LATE", [3, 15], 10000, 180, 300, 0, { from: 40, to: 222 })],
      question: "An aircraft that would pass three miles to the right turns toward you from second 40 on. What was reported before, and what is now?",
      meaning: "All aircraft are assumed to fly straight on. Before the turn there was no alert, which was right by what was known; each moment is "
        + "judged anew. Now only one side is open, and no speed or altitude is.",
      followed: "After the turn to the left the alert is over within three seconds, and the aircraft passes 0.78 NM away.",
    },
    "lesson: two aircraft": {
      config: "three_levels", seconds: 120, at: 15, follow: ["track", "lower"],
      traffic: [aircraft("HEAD", [0, 16], 10000, 180, 300), aircraft("RIGHT", [8, 9.5], 10000, 260, 250)],
      question: "One aircraft comes head-on, and another one, for which there is no alert, from the right. Why is the answer on the right farther "
        + "away?",
      meaning: "A track is open if it is clear of every aircraft, also of one that your present flight does not meet.",
      followed: "After the turn to the left the alert is over within two seconds, and both stay farther than 1.1 NM away.",
    },
    "lesson: recovery": {
      config: "recovery", seconds: 120, at: 60, follow: ["track", "recover"], traffic: [aircraft("NEAR", [0.3, 16], 10000, 180, 300)],
      question: "Nothing was done for a minute, and now nothing is open. What can still be done?",
      meaning: "If nothing is open, the blue diamond shows the value by which you are clear again soonest, and after how many seconds. On the way "
        + "there the volume is violated.",
      followed: "The volume is violated for two seconds, and you are clear three seconds after the turn began. Without the turn it takes forty.",
    },
  };

  /** An aircraft's state at a second.
   *  @type {(one: LessonAircraft, second: number) => Aircraft} */
  function stateOf({ id, east, north, alt, trk, knots, vs, turns }, second) {
    let [x, y, track] = [1000 * east, 1000 * north, trk];
    for (let k = 0; k < second; k++) {
      x += (knots * Math.sin(track * RADIANS)) / 3.6;
      y += (knots * Math.cos(track * RADIANS)) / 3.6;
      if (turns && k >= turns.from) track += Math.sign(turns.to - track) * Math.min(3, Math.abs(turns.to - track));
    }
    const [vx, vy] = [10 * knots * Math.sin(track * RADIANS), 10 * knots * Math.cos(track * RADIANS)].map(Math.round);
    return { id, x: Math.round(x), y: Math.round(y), alt: Math.round(alt + (vs * second) / 60), vx, vy, vs, age: 0 };
  }

  /** The moments of a lesson, one a second.
   *  @type {(lesson: Lesson) => Moment[]} */
  function momentsOf({ seconds, traffic }) {
    return Array.from({ length: seconds + 1 }, (_, time) => ({ time, own: { ...OWN, y: Math.round((OWN.gs * time) / 36) },
      traffic: traffic.map((one) => stateOf(one, time)), comments: [] }));
  }

  Object.assign(root.daa, { lessons: LESSONS, momentsOfLesson: momentsOf });
}
daaLessons(globalThis);
