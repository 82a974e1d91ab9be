//! The detect-and-avoid engine for Rust: alerts, bands, resolutions, last times and recoveries of a moment, and its report.
//!
//! Nothing a user calls has a pointer, and no call is unsafe. Units and ranges are those of
//! crates/daa_c/include/daidalus.h. What the engine refuses is a [`Refused`], whose text says why.
//!
//! ```no_run
//! use daidalus::{Config, Kind, Moment, Own, Side, Traffic};
//! let config = Config::read(&std::fs::read("examples/three_levels.toml")?)?;
//! let own = Own { x: 0, y: 0, alt: 10000, trk: 0, gs: 3600, vs: 0 };
//! let amber = Traffic { id: "AMBER".into(), x: 3000, y: 8000, alt: 10000, vx: -1350, vy: 0, vs: 0, age: 0 };
//! let moment = Moment::decide(&config, &own, &[amber])?;
//! let right = moment.resolution(Kind::Track, Side::Upper)?;
//! # Ok::<(), Box<dyn std::error::Error>>(())
//! ```
mod raw;

use std::fmt;
use std::ops::RangeInclusive;

const MOST_TEXT: usize = 130176;
const MOST_CANDIDATES: usize = 1897;
const MOST_VALUES: usize = 512;

/// What a candidate changes.
#[derive(Clone, Copy, Debug, PartialEq, Eq)]
pub enum Kind {
    /// degrees clockwise from north
    Track = 1,
    /// ground speed, 0.1 kt
    Speed = 2,
    /// vertical speed, ft/min
    Climb = 3,
    /// altitude, ft
    Height = 4,
}

/// The sides of a kind.
#[derive(Clone, Copy, Debug, PartialEq, Eq)]
pub enum Side {
    /// to the left, slower, or lower
    Lower = 0,
    /// to the right, faster, or higher
    Upper = 1,
}

/// The values min, min + step, .. up to max of a kind, and by how much a second may change the present value.
#[repr(C)]
#[derive(Clone, Copy, Debug, Default, PartialEq, Eq)]
pub struct Grid {
    pub min: i64,
    pub max: i64,
    pub step: i64,
    pub rate: i64,
}

/// A well-clear volume with its lookahead and alert time. Of `tcpa`, `tau` and `tep` at most one is 1: the time to the closest
/// approach, tau, or the time to the entry point is then in place of modified tau.
#[repr(C)]
#[derive(Clone, Copy, Debug, Default, PartialEq, Eq)]
pub struct Level {
    pub dthr: i64,
    pub zthr: i64,
    pub tthr: i64,
    pub tcoa: i64,
    pub lookahead: i64,
    pub alert: i64,
    pub tcpa: i64,
    pub tau: i64,
    pub tep: i64,
}

/// The ownship.
#[repr(C)]
#[derive(Clone, Copy, Debug, PartialEq, Eq)]
pub struct Own {
    pub x: i32,
    pub y: i32,
    pub alt: i32,
    pub trk: i32,
    pub gs: i32,
    pub vs: i32,
}

/// An aircraft; `age` is that of its report in seconds, over which it is flown straight on.
#[derive(Clone, Debug, PartialEq, Eq)]
pub struct Traffic {
    pub id: String,
    pub x: i32,
    pub y: i32,
    pub alt: i32,
    pub vx: i32,
    pub vy: i32,
    pub vs: i32,
    pub age: u32,
}

/// The alert of an aircraft: the level violated now, the one that alerts (0: none), and that one's first second.
#[derive(Clone, Copy, Debug, PartialEq, Eq)]
pub struct Alert {
    pub now: u32,
    pub level: u32,
    pub first: Option<u32>,
}

/// A stretch of a kind's rising values that show one level.
#[repr(C)]
#[derive(Clone, Copy, Debug, Default, PartialEq, Eq)]
pub struct Band {
    pub from: i32,
    pub upto: i32,
    pub level: u32,
}

/// The answer on a side of a kind.
#[derive(Clone, Copy, Debug, PartialEq, Eq)]
pub enum Resolution {
    /// the present flight may be kept
    Keep,
    /// the nearest open value
    To(i32),
    /// no value on that side is open
    Nothing,
}

/// From second `after` on the value is clear.
#[derive(Clone, Copy, Debug, PartialEq, Eq)]
pub struct Recovery {
    pub after: u32,
    pub value: i32,
}

/// What a call refuses: the code of daidalus.h, and the aircraft's place where one is meant.
#[derive(Clone, Debug, PartialEq, Eq)]
pub struct Refused {
    pub code: i32,
    pub place: Option<usize>,
    detail: String,
}

impl fmt::Display for Refused {
    fn fmt(&self, f: &mut fmt::Formatter) -> fmt::Result {
        write!(f, "{}{}", sentence(self.code), self.detail)
    }
}

impl std::error::Error for Refused {}

fn sentence(code: i32) -> &'static str {
    match code {
        1 => "the configuration has more than 65536 bytes",
        2 => "the configuration is no document of TOML",
        3 => "the configuration has a key that is not known",
        4 => "the configuration lacks a key",
        5 => "a value of the configuration is no whole number, or no table",
        6 => "a number of the configuration is out of its range, min is above max, track_step does not divide 360, or a level has two models",
        7 => "the configuration has no level or more than four, or resolve is above their number",
        8 => "a kind has more than 512 candidates",
        16 => "the ownship is out of range",
        17 => "an aircraft is out of range",
        18 => "there are more than 64 aircraft",
        20 => "there is no memory",
        21 => "an identifier is not 1 to 8 letters, digits, _ and -",
        22 => "two aircraft have one identifier",
        26 => "the configuration does not ask for it",
        27 => "the board was not decided under this configuration",
        28 => "the board is of another ownship",
        29 => "the board is of another time",
        30 => "the board was changed, or copied while it was filled in",
        31 => "the report is too old",
        32 => "the report is of a time more than a second ahead",
        33 => "m is not 1 to n, or n is above 16",
        34 => "the level is none of an alert, or the levels are none of the configuration",
        35 => "the time is not after that of the moment before",
        36 => "no flight of the kind goes to the value",
        37 => "the aircraft is more than 100 nautical miles away",
        _ => "the engine refused the call",
    }
}

/// An answer of a call: `Ok` where it is 0.
fn done(code: i32) -> Result<(), Refused> {
    if code == 0 { Ok(()) } else { Err(Refused { code, place: None, detail: String::new() }) }
}

/// The version of the archive: major * 10000 + minor * 100 + patch.
pub fn version() -> i32 {
    // SAFETY: it takes nothing.
    unsafe { raw::daa_version() }
}

/// Panics where the archive that was linked is of another version than this package. No call but [`version`] is made without a
/// configuration, and so not before this.
fn check_version() {
    assert!(version() == raw::VERSION, "the archive is of version {}, and this package of version {}", version(), raw::VERSION);
}

/// An accepted configuration. To make one panics where the archive that was linked is of another version than this package.
#[derive(Clone, Copy)]
pub struct Config(raw::Config);

impl Config {
    /// The configuration of a text of TOML.
    pub fn read(text: &[u8]) -> Result<Config, Refused> {
        check_version();
        let mut numbers = raw::Config::default();
        // SAFETY: the text is valid for its length, and nothing else borrows the numbers.
        done(unsafe { raw::daa_read(text.as_ptr(), text.len(), &mut numbers) })?;
        Ok(Config(numbers))
    }

    /// The configuration of these numbers, without a recovery and without last times; `levels[0]` is level 1.
    pub fn of(resolve: i64, turn_rate: i64, track_step: i64, grids: [Grid; 3], levels: &[Level]) -> Result<Config, Refused> {
        let [gs, vs, alt] = grids;
        let mut level = [Level::default(); 4];
        if levels.len() > level.len() {
            done(7)?;
        }
        level[..levels.len()].copy_from_slice(levels);
        let count = levels.len() as u64;
        Config(raw::Config { resolve, turn_rate, track_step, gs, vs, alt, count, level, ..Default::default() }).checked()
    }

    /// The same configuration with a recovery that stays out of this cylinder (0.001 NM, ft). `nearest`: whether, of the values
    /// that recover soonest, the one nearest to the present value is named, and not the least.
    pub fn with_recovery(mut self, hdist: i64, vdist: i64, nearest: bool) -> Result<Config, Refused> {
        (self.0.recovery, self.0.hdist, self.0.vdist, self.0.nearest) = (1, hdist, vdist, nearest as i64);
        self.checked()
    }

    /// The same configuration, which also asks for the last times to manoeuvre.
    pub fn with_last_times(mut self) -> Result<Config, Refused> {
        self.0.last_times = 1;
        self.checked()
    }

    fn checked(self) -> Result<Config, Refused> {
        check_version();
        // SAFETY: the numbers are valid.
        done(unsafe { raw::daa_check(&self.0) }).map(|()| self)
    }
}

/// An aircraft for C. An identifier that C cannot hold is handed on as none, which the engine refuses.
fn c_traffic(it: &Traffic) -> raw::Traffic {
    let mut id = [0; 8];
    if it.id.len() <= id.len() && !it.id.contains('\0') {
        id[..it.id.len()].copy_from_slice(it.id.as_bytes());
    }
    raw::Traffic { id, x: it.x, y: it.y, alt: it.alt, vx: it.vx, vy: it.vy, vs: it.vs, age: it.age }
}

impl Traffic {
    /// The aircraft as it is now, from this report of another time, both in milliseconds of one clock: its age, and its numbers
    /// flown straight on over what is left of a second. A report of up to a second ahead is flown back. Refused where the report
    /// is older than `most` milliseconds, or 61 seconds old.
    pub fn fly(&self, at: u64, now: u64, most: u32) -> Result<Traffic, Refused> {
        let reported = c_traffic(self);
        let mut out = reported;
        // SAFETY: the states are valid, and they do not overlap.
        done(unsafe { raw::daa_fly(&reported, at, now, most, &mut out) })?;
        Ok(Traffic { id: self.id.clone(), x: out.x, y: out.y, alt: out.alt, vx: out.vx, vy: out.vy, vs: out.vs, age: out.age })
    }
}

impl Own {
    /// The ownship as it is now, from this report of another time, both in milliseconds of one clock: flown straight on over all
    /// of its age. A report of up to a second ahead is flown back.
    pub fn fly(&self, at: u64, now: u64, most: u32) -> Result<Own, Refused> {
        let mut out = *self;
        // SAFETY: as above.
        done(unsafe { raw::daa_fly_own(self, at, now, most, &mut out) })?;
        Ok(out)
    }
}

/// An aircraft on the globe: latitude and longitude in ten-millionths of a degree, velocity east and north in 0.1 kt.
#[repr(C)]
#[derive(Clone, Copy, Debug, Default, PartialEq, Eq)]
pub struct Place {
    pub lat: i32,
    pub lon: i32,
    pub vx: i32,
    pub vy: i32,
}

/// An ownship in the plane round it. `turn`: by how much the plane is turned to the right of true north, in 0.0001 degree.
#[repr(C)]
#[derive(Clone, Copy, Debug, Default, PartialEq, Eq)]
pub struct Course {
    pub trk: i32,
    pub gs: i32,
    pub turn: i32,
}

/// An aircraft in the plane round an ownship, which is at 0 0.
#[repr(C)]
#[derive(Clone, Copy, Debug, Default, PartialEq, Eq)]
pub struct Seen {
    pub x: i32,
    pub y: i32,
    pub vx: i32,
    pub vy: i32,
}

impl Place {
    /// The track and the ground speed of this ownship in the plane round it, and that plane's turn.
    pub fn course(&self) -> Result<Course, Refused> {
        let mut out = Course::default();
        // SAFETY: as above.
        done(unsafe { raw::daa_plane_own(self, &mut out) })?;
        Ok(out)
    }

    /// An aircraft in the plane round this ownship, turned so that the ownship's track is a whole degree. Refused where it is more
    /// than 100 NM away.
    pub fn see(&self, aircraft: &Place) -> Result<Seen, Refused> {
        let mut out = Seen::default();
        // SAFETY: as above.
        done(unsafe { raw::daa_plane(self, aircraft, &mut out) })?;
        Ok(out)
    }
}

/// A decided moment, and what may be asked of it.
pub struct Moment {
    config: raw::Config,
    time: u32,
    own: Own,
    traffic: Vec<raw::Traffic>,
    board: Box<raw::Board>,
}

impl Moment {
    /// Decides a moment. [`Refused`] names the aircraft and the number that is out of range.
    pub fn decide(config: &Config, own: &Own, traffic: &[Traffic]) -> Result<Moment, Refused> {
        Moment::decide_at(config, 0, own, traffic)
    }

    /// Decides a moment of a time, which is the caller's number of it: its second, or a sequence.
    pub fn decide_at(config: &Config, time: u32, own: &Own, traffic: &[Traffic]) -> Result<Moment, Refused> {
        let mut moment = Moment {
            config: config.0,
            time,
            own: *own,
            traffic: traffic.iter().map(c_traffic).collect(),
            board: Box::new(raw::Board { mask: [0; 2048], mark: [0; 55], own: *own, time, sum: 0 }),
        };
        moment.refuse(traffic)?;
        let Moment { config, time, own, traffic, board } = &mut moment;
        // SAFETY: the aircraft are valid for their number, and nothing else borrows the board.
        done(unsafe { raw::daa_decide(config, *time, own, traffic.as_ptr(), traffic.len(), &mut **board) })?;
        Ok(moment)
    }

    fn refuse(&self, traffic: &[Traffic]) -> Result<(), Refused> {
        let mut fault = raw::Fault::default();
        // SAFETY: as above.
        done(unsafe { raw::daa_fault(&self.own, self.traffic.as_ptr(), self.traffic.len(), &mut fault) })?;
        if fault.code == 0 {
            return Ok(());
        }
        let place = matches!(fault.code, 17 | 21 | 22).then_some(fault.place as usize);
        let mut detail = place.map(|place| format!(": {}", traffic[place].id)).unwrap_or_default();
        if fault.field != 0 {
            let field = ["", "x", "y", "alt", "trk", "gs", "vs", "vx", "vy", "age"][fault.field as usize];
            detail += &format!(": {field} is not in {}..{}", fault.least, fault.greatest);
        }
        Err(Refused { code: fault.code, place, detail })
    }

    /// Adds the levels of another moment of the same configuration, time and ownship: bands, levels and resolutions are then those
    /// of the aircraft of both together, however many these are. The other answers stay those of this one's aircraft.
    pub fn join(&mut self, more: &Moment) -> Result<(), Refused> {
        // SAFETY: the boards are valid, and they do not overlap.
        done(unsafe { raw::daa_join(&self.config, &*more.board, &mut *self.board) })
    }

    /// The alert of the aircraft at this place of the list. Panics where there is none.
    pub fn alert(&self, place: usize) -> Result<Alert, Refused> {
        let mut found = raw::Alert::default();
        // SAFETY: as above.
        done(unsafe { raw::daa_alert(&self.config, &self.own, &self.traffic[place], &mut found) })?;
        let first = (found.level != 0).then_some(found.first as u32);
        Ok(Alert { now: found.now, level: found.level, first })
    }

    /// The bands of a kind, in the rising order of its values.
    pub fn bands(&self, kind: Kind) -> Result<Vec<Band>, Refused> {
        let (mut bands, mut count) = (vec![Band::default(); MOST_VALUES], 0);
        // SAFETY: the bands are valid for their number.
        done(unsafe {
            raw::daa_bands(&self.config, self.time, &*self.board, kind as i32, bands.as_mut_ptr(), bands.len(), &mut count)
        })?;
        bands.truncate(count);
        Ok(bands)
    }

    /// The level of each candidate, in the order of the configuration's whole list.
    pub fn levels(&self) -> Result<Vec<u8>, Refused> {
        let (mut levels, mut count) = (vec![0; MOST_CANDIDATES], 0);
        // SAFETY: the levels are valid for their number.
        done(unsafe { raw::daa_levels(&self.config, self.time, &*self.board, levels.as_mut_ptr(), levels.len(), &mut count) })?;
        levels.truncate(count);
        Ok(levels)
    }

    /// The answer on a side of a kind.
    pub fn resolution(&self, kind: Kind, side: Side) -> Result<Resolution, Refused> {
        let mut to = raw::Resolution::default();
        // SAFETY: as above.
        done(unsafe { raw::daa_resolution(&self.config, self.time, &self.own, &*self.board, kind as i32, side as i32, &mut to) })?;
        Ok(match to.what {
            0 => Resolution::Keep,
            1 => Resolution::To(to.value),
            _ => Resolution::Nothing,
        })
    }

    /// The soonest recovery of a kind, under a configuration that asks for recoveries.
    pub fn recovery(&self, kind: Kind) -> Result<Option<Recovery>, Refused> {
        let (traffic, mut to) = (&self.traffic, raw::Recovery::default());
        // SAFETY: as above.
        done(unsafe {
            raw::daa_recovery(&self.config, &self.own, traffic.as_ptr(), traffic.len(), kind as i32, &mut to)
        })?;
        Ok((to.found != 0).then_some(Recovery { after: to.after, value: to.value }))
    }

    /// The soonest recovery among the values on a side of the present one, under a configuration that asks for recoveries.
    pub fn recovery_side(&self, kind: Kind, side: Side) -> Result<Option<Recovery>, Refused> {
        let (traffic, mut to) = (&self.traffic, raw::Recovery::default());
        // SAFETY: as above.
        done(unsafe {
            raw::daa_recovery_side(&self.config, &self.own, traffic.as_ptr(), traffic.len(), kind as i32, side as i32, &mut to)
        })?;
        Ok((to.found != 0).then_some(Recovery { after: to.after, value: to.value }))
    }

    /// The greatest number of seconds, below the greatest lookahead of the levels that close, for which the present flight may
    /// be kept so that some candidate of the kind that begins then is open, under a configuration that asks for last times;
    /// `None` where there is no such time.
    pub fn last(&self, kind: Kind) -> Result<Option<u32>, Refused> {
        let (traffic, mut to) = (&self.traffic, raw::Last::default());
        // SAFETY: as above.
        done(unsafe { raw::daa_last(&self.config, &self.own, traffic.as_ptr(), traffic.len(), kind as i32, &mut to) })?;
        Ok((to.found != 0).then_some(to.after))
    }

    /// The places of the aircraft that the flight to a value of a kind meets at some of these levels. The value may be any that the
    /// kind can have, also one that the configuration does not list.
    pub fn closers(&self, kind: Kind, value: i32, levels: RangeInclusive<u32>) -> Result<Vec<usize>, Refused> {
        let (traffic, mut places) = (&self.traffic, 0);
        let (least, greatest) = levels.into_inner();
        // SAFETY: as above.
        done(unsafe {
            let (traffic, count) = (traffic.as_ptr(), traffic.len());
            raw::daa_closers(&self.config, &self.own, traffic, count, kind as i32, value, least, greatest, &mut places)
        })?;
        Ok((0..64).filter(|place| places >> place & 1 == 1).collect())
    }

    /// The level of the flight to a value of a kind, any that the kind can have: the greatest at which it meets some aircraft, or 0.
    pub fn value_level(&self, kind: Kind, value: i32) -> Result<u32, Refused> {
        let (traffic, mut level) = (&self.traffic, 0);
        // SAFETY: as above.
        done(unsafe {
            raw::daa_value_level(&self.config, &self.own, traffic.as_ptr(), traffic.len(), kind as i32, value, &mut level)
        })?;
        Ok(level)
    }

    /// The moment's text, as the program writes it.
    pub fn report(&self, time: u32) -> Result<String, Refused> {
        let (traffic, mut text, mut length) = (&self.traffic, vec![0; MOST_TEXT], 0);
        // SAFETY: the text is valid for its length.
        done(unsafe {
            let (text, room) = (text.as_mut_ptr(), text.len());
            raw::daa_report(&self.config, time, &self.own, traffic.as_ptr(), traffic.len(), text, room, &mut length)
        })?;
        text.truncate(length);
        Ok(String::from_utf8_lossy(&text).into_owned())
    }
}

/// What is shown of one aircraft's alerts from moment to moment: a level counts if at least m of the last n moments with the
/// aircraft had it or a greater one, and is shown then and for `hold` seconds after.
pub struct Steady {
    rule: raw::SteadyRule,
    state: raw::SteadyState,
}

impl Steady {
    /// Nothing is kept yet. `m` is 1 to `n`, and `n` at most 16.
    pub fn new(m: u32, n: u32, hold: u32) -> Steady {
        check_version();
        Steady { rule: raw::SteadyRule { m, n, hold }, state: raw::SteadyState::default() }
    }

    /// The level to be shown in a moment in which the aircraft's alert has this level, or `None` if the moment has not the
    /// aircraft. Times rise. Where the rule, the level or the time is refused nothing has changed.
    pub fn take(&mut self, time: u32, level: Option<u32>) -> Result<u32, Refused> {
        let mut shown = 0;
        let level = level.map_or(-1, |level| i32::try_from(level).unwrap_or(i32::MAX));
        // SAFETY: nothing else borrows the state.
        done(unsafe { raw::daa_steady(&self.rule, time, level, &mut self.state, &mut shown) })?;
        Ok(shown)
    }
}

/// The side of one kind's answer that is shown from moment to moment: one that was taken stays for some seconds, unless its answer
/// is [`Resolution::Nothing`].
pub struct SteadySide {
    seconds: u32,
    state: raw::SideState,
}

impl SteadySide {
    /// Nothing is kept yet.
    pub fn new(seconds: u32) -> SteadySide {
        check_version();
        SteadySide { seconds, state: raw::SideState::default() }
    }

    /// The side whose value is to be shown in a moment with these answers, or `None`. Times rise.
    pub fn take(&mut self, time: u32, lower: Resolution, upper: Resolution, preferred: Side) -> Result<Option<Side>, Refused> {
        let what = |answer| match answer {
            Resolution::Keep => 0,
            Resolution::To(_) => 1,
            Resolution::Nothing => 2,
        };
        let (lower, upper, mut shown) = (what(lower), what(upper), 0);
        // SAFETY: nothing else borrows the state.
        done(unsafe {
            raw::daa_steady_side(self.seconds, time, lower, upper, preferred as i32, &mut self.state, &mut shown)
        })?;
        Ok(match shown {
            0 => Some(Side::Lower),
            1 => Some(Side::Upper),
            _ => None,
        })
    }
}
