//! The declarations of crates/daa_c/include/daidalus.h, whose comments tell units and ranges.
use crate::{Course, Grid, Level, Own, Place, Seen};

/// The version of that header: the structs of an archive of another version may be others.
pub const VERSION: i32 = 30300;

#[repr(C)]
#[derive(Clone, Copy, Default)]
pub struct Config {
    pub resolve: i64,
    pub turn_rate: i64,
    pub track_step: i64,
    pub gs: Grid,
    pub vs: Grid,
    pub alt: Grid,
    pub recovery: u64,
    pub hdist: i64,
    pub vdist: i64,
    pub nearest: i64,
    pub last_times: i64,
    pub count: u64,
    pub level: [Level; 4],
}

#[repr(C)]
#[derive(Clone, Copy)]
pub struct Traffic {
    pub id: [u8; 8],
    pub x: i32,
    pub y: i32,
    pub alt: i32,
    pub vx: i32,
    pub vy: i32,
    pub vs: i32,
    pub age: u32,
}

#[repr(C)]
#[derive(Default)]
pub struct Alert {
    pub now: u32,
    pub level: u32,
    pub first: i64,
}

#[repr(C)]
#[derive(Default)]
pub struct Fault {
    pub code: i32,
    pub field: i32,
    pub least: i32,
    pub greatest: i32,
    pub place: u64,
}

#[repr(C)]
pub struct Board {
    pub mask: [u8; 2048],
    pub mark: [i64; 55],
    pub own: Own,
    pub time: u32,
    pub sum: u32,
}

#[repr(C)]
#[derive(Default)]
pub struct Resolution {
    pub what: i32,
    pub value: i32,
}

#[repr(C)]
#[derive(Default)]
pub struct Recovery {
    pub found: i32,
    pub after: u32,
    pub value: i32,
}

#[repr(C)]
#[derive(Default)]
pub struct Last {
    pub found: i32,
    pub after: u32,
}

#[repr(C)]
#[derive(Clone, Copy)]
pub struct SteadyRule {
    pub m: u32,
    pub n: u32,
    pub hold: u32,
}

#[repr(C)]
#[derive(Clone, Copy, Default)]
pub struct SteadyState {
    pub recent: [u8; 16],
    pub ends: [u64; 4],
    pub gone: u64,
    pub next: u64,
}

#[repr(C)]
#[derive(Clone, Copy, Default)]
pub struct SideState {
    pub side: u32,
    pub until: u64,
    pub next: u64,
}

#[rustfmt::skip]
extern "C" {
    pub fn daa_version() -> i32;
    pub fn daa_read(text: *const u8, size: usize, config: *mut Config) -> i32;
    pub fn daa_check(config: *const Config) -> i32;
    pub fn daa_fault(own: *const Own, traffic: *const Traffic, count: usize, out: *mut Fault) -> i32;
    pub fn daa_fly(traffic: *const Traffic, at: u64, now: u64, most: u32, out: *mut Traffic) -> i32;
    pub fn daa_fly_own(own: *const Own, at: u64, now: u64, most: u32, out: *mut Own) -> i32;
    pub fn daa_plane_own(own: *const Place, out: *mut Course) -> i32;
    pub fn daa_plane(own: *const Place, aircraft: *const Place, out: *mut Seen) -> i32;
    pub fn daa_alert(config: *const Config, own: *const Own, traffic: *const Traffic, out: *mut Alert) -> i32;
    pub fn daa_decide(config: *const Config, time: u32, own: *const Own, traffic: *const Traffic, count: usize, board: *mut Board) -> i32;
    pub fn daa_join(config: *const Config, more: *const Board, board: *mut Board) -> i32;
    pub fn daa_levels(config: *const Config, time: u32, board: *const Board, levels: *mut u8, room: usize, count: *mut usize) -> i32;
    pub fn daa_bands(config: *const Config, time: u32, board: *const Board, kind: i32, bands: *mut crate::Band, room: usize, count: *mut usize) -> i32;
    pub fn daa_resolution(config: *const Config, time: u32, own: *const Own, board: *const Board, kind: i32, side: i32, out: *mut Resolution) -> i32;
    pub fn daa_recovery(config: *const Config, own: *const Own, traffic: *const Traffic, count: usize, kind: i32, out: *mut Recovery) -> i32;
    pub fn daa_recovery_side(config: *const Config, own: *const Own, traffic: *const Traffic, count: usize, kind: i32, side: i32, out: *mut Recovery) -> i32;
    pub fn daa_last(config: *const Config, own: *const Own, traffic: *const Traffic, count: usize, kind: i32, out: *mut Last) -> i32;
    pub fn daa_report(config: *const Config, time: u32, own: *const Own, traffic: *const Traffic, count: usize, text: *mut u8, room: usize, length: *mut usize) -> i32;
    pub fn daa_closers(config: *const Config, own: *const Own, traffic: *const Traffic, count: usize, kind: i32, value: i32, least: u32, greatest: u32, places: *mut u64) -> i32;
    pub fn daa_value_level(config: *const Config, own: *const Own, traffic: *const Traffic, count: usize, kind: i32, value: i32, level: *mut u32) -> i32;
    pub fn daa_steady(rule: *const SteadyRule, time: u32, level: i32, state: *mut SteadyState, shown: *mut u32) -> i32;
    pub fn daa_steady_side(seconds: u32, time: u32, lower: i32, upper: i32, preferred: i32, state: *mut SideState, shown: *mut i32) -> i32;
}
