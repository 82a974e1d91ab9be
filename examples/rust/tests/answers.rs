//! What the calls that the example does not make answer: a configuration from numbers, recoveries, last times, and levels.
//! The answers are those that docs/GUIDE.md shows.
use daidalus::{Config, Course, Grid, Kind, Level, Moment, Own, Place, Recovery, Refused, Seen, Side, Traffic};

const CLOSED: &str = include_str!("../../closed.states");
const ENCOUNTER: &str = include_str!("../../encounter.states");
const KINDS: [Kind; 4] = [Kind::Track, Kind::Speed, Kind::Climb, Kind::Height];
const WORDS: [&str; 4] = ["track", "gs", "vs", "alt"];
const GRIDS: [Grid; 3] = [
    Grid { min: 500, max: 7000, step: 100, rate: 20 },
    Grid { min: -5000, max: 5000, step: 100, rate: 500 },
    Grid { min: 0, max: 50000, step: 500, rate: 2000 },
];
const LEVEL: Level =
    Level { dthr: 660, zthr: 450, tthr: 35, tcoa: 0, lookahead: 75, alert: 55, tcpa: 0, tau: 0, tep: 0 };
const LEVELS: [Level; 3] = [Level { zthr: 700, ..LEVEL }, LEVEL, Level { lookahead: 55, alert: 25, ..LEVEL }];

/// The moment of this time in state lines of format 1, decided.
fn decided(config: &Config, states: &str, time: u32) -> Moment {
    let lines = states.lines().skip_while(|line| *line != format!("moment {time}")).take_while(|line| *line != "end");
    let (mut owns, mut traffic) = (Vec::new(), Vec::new());
    for line in lines {
        let (word, rest) = line.split_once(' ').unwrap();
        let numbers: Vec<i32> = rest.split(' ').filter_map(|it| it.parse().ok()).collect();
        match (word, &numbers[..]) {
            ("own", &[x, y, alt, trk, gs, vs]) => owns.push(Own { x, y, alt, trk, gs, vs }),
            ("traffic", &[x, y, alt, vx, vy, vs]) => {
                traffic.push(Traffic { id: rest.split(' ').next().unwrap().into(), x, y, alt, vx, vy, vs, age: 0 })
            }
            _ => assert_eq!(word, "moment"),
        }
    }
    assert_eq!((owns.len(), traffic.len()), (1, 2));
    Moment::decide(config, &owns[0], &traffic).unwrap()
}

fn from_numbers() -> Config {
    Config::of(2, 3, 5, GRIDS, &LEVELS).unwrap()
}

/// Each candidate's level is that of the one band of its kind that has its value.
fn assert_levels_are_those_of_the_bands(moment: &Moment) {
    let tracks = Grid { min: 0, max: 355, step: 5, rate: 3 };
    let (levels, mut index) = (moment.levels().unwrap(), 1);
    for (kind, grid) in KINDS.into_iter().zip([tracks, GRIDS[0], GRIDS[1], GRIDS[2]]) {
        let bands = moment.bands(kind).unwrap();
        for value in (grid.min..=grid.max).step_by(grid.step as usize) {
            let shown = bands.iter().filter(|it| (it.from as i64..=it.upto as i64).contains(&value));
            assert_eq!(shown.map(|it| it.level).collect::<Vec<_>>(), [levels[index] as u32], "{kind:?} {value}");
            index += 1;
        }
    }
    assert_eq!(levels.len(), index);
}

#[test]
fn numbers_are_the_configuration_of_their_text() {
    let (text, mut found) = (include_str!("../../recovery.toml"), Vec::new());
    for (text, nearest) in [(text.to_string(), true), (text.replace("nearest = 1", "nearest = 0"), false)] {
        let read = Config::read(text.as_bytes()).unwrap();
        let built = from_numbers().with_recovery(82, 100, nearest).unwrap();
        for (states, time) in [(CLOSED, 0), (ENCOUNTER, 50)] {
            let [wanted, report] = [read, built].map(|config| decided(&config, states, time).report(time).unwrap());
            assert_eq!(report, wanted);
        }
        found.push(decided(&built, ENCOUNTER, 50).recovery(Kind::Height).unwrap().map(|it| it.value));
    }
    assert_eq!(found, [Some(10500), Some(0)]);
    let code = |config: Result<Config, Refused>| config.err().map(|it| it.code);
    assert_eq!(code(from_numbers().with_recovery(1, 0, true)), None);
    assert_eq!(code(from_numbers().with_recovery(0, 1, true)), Some(6));
    assert_eq!(code(Config::of(4, 3, 5, GRIDS, &LEVELS)), Some(7));
    assert_eq!(code(Config::of(1, 3, 5, GRIDS, &[LEVEL; 5])), Some(7));
}

#[test]
fn recoveries_are_those_of_the_report() {
    let moment = decided(&from_numbers().with_recovery(82, 100, true).unwrap(), CLOSED, 0);
    let report = moment.report(0).unwrap();
    let wanted = [Some((18, 140)), None, Some((11, 4600)), Some((14, 9500))];
    // as tools/reference finds them
    let lower = [Some((23, 45)), None, Some((15, -4600)), Some((23, 8000))];
    for (((kind, word), wanted), lower) in KINDS.into_iter().zip(WORDS).zip(wanted).zip(lower) {
        let found = moment.recovery(kind).unwrap();
        assert_eq!(found, wanted.map(|(after, value)| Recovery { after, value }));
        // the ownship flies east at 9000 ft: 140 degrees, a climb and 9500 ft are on the upper side
        assert_eq!(moment.recovery_side(kind, Side::Upper).unwrap(), found);
        assert_eq!(moment.recovery_side(kind, Side::Lower).unwrap(), lower.map(|(after, value)| Recovery { after, value }));
        let told = found.map_or("none".into(), |it| format!("{} {}", it.after, it.value));
        assert!(report.contains(&format!("\nrecover {word} {told}\n")), "{report}");
    }
    assert_levels_are_those_of_the_bands(&moment);
}

#[test]
fn last_times_are_those_of_the_report() {
    let config = Config::read(include_bytes!("../../three_levels.toml")).unwrap();
    let [without, moment] = [config, config.with_last_times().unwrap()].map(|it| decided(&it, ENCOUNTER, 30));
    let report = moment.report(30).unwrap();
    for ((kind, word), wanted) in KINDS.into_iter().zip(WORDS).zip([Some(8), None, Some(3), Some(0)]) {
        assert_eq!(moment.last(kind), Ok(wanted));
        let told = wanted.map_or("none".into(), |it| it.to_string());
        assert!(report.contains(&format!("\nlast {word} {told}\n")), "{report}");
        assert_eq!(without.last(kind).map_err(|it| it.code), Err(26));
        assert_eq!(moment.recovery(kind).map_err(|it| it.code), Err(26));
    }
    assert_levels_are_those_of_the_bands(&moment);
}

#[test]
fn joined_moments_are_of_all_aircraft() {
    let (config, own) = (from_numbers(), Own { x: 0, y: 0, alt: 10000, trk: 0, gs: 3600, vs: 0 });
    let traffic = [
        Traffic { id: "AMBER".into(), x: 3000, y: 8000, alt: 10000, vx: -1350, vy: 0, vs: 0, age: 0 },
        Traffic { id: "BRAVO".into(), x: -1200, y: -300, alt: 10600, vx: 0, vy: 3600, vs: -600, age: 0 },
    ];
    let at = |time, traffic: &[Traffic]| Moment::decide_at(&config, time, &own, traffic).unwrap();
    let (whole, mut half, other) = (at(7, &traffic), at(7, &traffic[..1]), at(7, &traffic[1..]));
    assert_ne!(half.levels().unwrap(), whole.levels().unwrap());
    assert_ne!(other.levels().unwrap(), whole.levels().unwrap());
    half.join(&other).unwrap();
    assert_eq!(half.levels().unwrap(), whole.levels().unwrap());
    assert_eq!(half.join(&at(8, &traffic[1..])).unwrap_err().code, 29);
    let turned = Moment::decide_at(&config, 7, &Own { trk: 1, ..own }, &traffic).unwrap();
    assert_eq!(half.join(&turned).unwrap_err().code, 28);
}

#[test]
fn states_are_flown_to_one_instant() {
    let own = Own { x: 0, y: 0, alt: 10000, trk: 90, gs: 3600, vs: 600 };
    assert_eq!(own.fly(1000, 3500, 3000).unwrap(), Own { x: 250, alt: 10025, ..own });
    assert_eq!(own.fly(0, 3001, 3000).unwrap_err().code, 31);
    let amber = Traffic { id: "AMBER".into(), x: 0, y: 0, alt: 10000, vx: 3600, vy: -3600, vs: 600, age: 9 };
    assert_eq!(amber.fly(1000, 3500, 60999).unwrap(), Traffic { x: 50, y: -50, alt: 10005, age: 2, ..amber.clone() });
    assert_eq!(amber.fly(1000, 500, 60999).unwrap(), Traffic { x: -50, y: 50, alt: 9995, age: 0, ..amber.clone() });
    assert_eq!(amber.fly(1001, 0, 60999).unwrap_err().code, 32);
}

#[test]
fn places_go_into_the_plane() {
    let own = Place { lat: 520000000, lon: 40000000, vx: 1234, vy: 3456 };
    let aircraft = Place { lat: 522500000, lon: 43500000, vx: -2800, vy: 1500 };
    assert_eq!(own.course().unwrap(), Course { trk: 20, gs: 3670, turn: -3504 });
    assert_eq!(own.see(&aircraft).unwrap(), Seen { x: 12998, y: 14972, vx: -2798, vy: 1504 });
    assert_eq!(own.see(&Place::default()).unwrap_err().code, 37);
    assert_eq!(Place { lat: 800000001, ..own }.course().unwrap_err().code, 16);
    assert_eq!(own.see(&Place { vx: 10001, ..aircraft }).unwrap_err().code, 17);
}
