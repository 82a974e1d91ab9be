//! One moment of the encounter in README.md, from plain Rust: its alerts, bands and resolutions, in the lines of the report.
//!
//!     one_moment CONFIGURATION           asks for each answer by itself
//!     one_moment CONFIGURATION report    asks for the whole text
//!
//! What the engine refuses is said on standard error, and its code is the status.
use daidalus::{Config, Kind, Moment, Own, Refused, Resolution, Side, Traffic};
use std::process::ExitCode;

const OWN: Own = Own { x: 0, y: 0, alt: 10000, trk: 0, gs: 3600, vs: 0 };

/// Each kind, its name, and those of its lower and its upper side.
const KINDS: [(Kind, &str, &str, &str); 4] = [
    (Kind::Track, "track", "left", "right"),
    (Kind::Speed, "gs", "down", "up"),
    (Kind::Climb, "vs", "down", "up"),
    (Kind::Height, "alt", "down", "up"),
];

fn traffic() -> [Traffic; 2] {
    [
        Traffic { id: "AMBER".into(), x: 3000, y: 8000, alt: 10000, vx: -1350, vy: 0, vs: 0, age: 0 },
        Traffic { id: "BRAVO".into(), x: -1200, y: -300, alt: 10600, vx: 0, vy: 3600, vs: -600, age: 0 },
    ]
}

fn side(moment: &Moment, kind: Kind, side: Side) -> Result<String, Refused> {
    Ok(match moment.resolution(kind, side)? {
        Resolution::Keep => "keep".into(),
        Resolution::To(value) => value.to_string(),
        Resolution::Nothing => "none".into(),
    })
}

fn answers(moment: &Moment) -> Result<String, Refused> {
    let mut text = String::from("moment 0\n");
    for (place, aircraft) in traffic().iter().enumerate() {
        let (id, alert) = (&aircraft.id, moment.alert(place)?);
        let first = alert.first.map_or("-".into(), |second| second.to_string());
        text += &format!("now {id} {}\nalert {id} {} {first}\n", alert.now, alert.level);
    }
    for (kind, name, ..) in KINDS {
        for band in moment.bands(kind)? {
            text += &format!("{name} {} {} {}\n", band.from, band.upto, band.level);
        }
    }
    for (kind, name, lower, upper) in KINDS {
        let (down, up) = (side(moment, kind, Side::Lower)?, side(moment, kind, Side::Upper)?);
        text += &format!("resolve {name} {lower} {down} {upper} {up}\n");
    }
    Ok(text + "done 0\n")
}

fn text_of(configuration: &[u8], whole: bool) -> Result<String, Refused> {
    let moment = Moment::decide(&Config::read(configuration)?, &OWN, &traffic())?;
    if whole { moment.report(0) } else { answers(&moment) }
}

fn main() -> ExitCode {
    let words: Vec<String> = std::env::args().skip(1).collect();
    let (name, whole) = match &words[..] {
        [name] => (name, false),
        [name, word] if word == "report" => (name, true),
        _ => {
            eprintln!("usage: one_moment CONFIGURATION [report]");
            return 2.into();
        }
    };
    let configuration = match std::fs::read(name) {
        Ok(bytes) => bytes,
        Err(fault) => {
            eprintln!("{name}: {fault}");
            return 1.into();
        }
    };
    match text_of(&configuration, whole) {
        Ok(text) => {
            print!("{text}");
            0.into()
        }
        Err(refused) => {
            eprintln!("{refused}");
            (refused.code as u8).into()
        }
    }
}
