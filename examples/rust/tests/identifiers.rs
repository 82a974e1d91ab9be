//! An identifier that C cannot hold is refused, and none is cut to one that it can.
use daidalus::{Config, Moment, Own, Traffic};

#[test]
fn none_is_cut() {
    let config = Config::read(include_bytes!("../../three_levels.toml")).unwrap();
    let own = Own { x: 0, y: 0, alt: 10000, trk: 0, gs: 3600, vs: 0 };
    for id in ["A\0B", "A\0", "\0", "INTRUDER1"] {
        let aircraft = Traffic { id: id.into(), x: 3000, y: 8000, alt: 10000, vx: -1350, vy: 0, vs: 0, age: 0 };
        let refused = Moment::decide(&config, &own, &[aircraft]).err();
        assert_eq!(refused.map(|it| (it.code, it.place)), Some((21, Some(0))), "{id:?}");
    }
}
