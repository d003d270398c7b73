//! Settings: the archive decides, and the error names the field.
use isis_gr::{CircuitSettings, Gateway, Kind, Levels, Mac, Mode, Settings, SystemId};

fn circuit() -> CircuitSettings {
    CircuitSettings::new(Kind::Lan, Levels::BOTH, Mac([2; 6]))
}

fn settings(circuits: &[CircuitSettings]) -> Settings {
    circuits.iter().fold(Settings::new(SystemId([1; 6]), Mode::Running, 0), |s, circuit| s.circuit(*circuit))
}

fn fault(s: Settings) -> String {
    Gateway::new().set_up(&s).expect_err("out of range").to_string()
}

#[test]
fn the_bounds_themselves_are_accepted() {
    let low = circuit().priority(0).hold(1).metric(0);
    let high = circuit().priority(127).hold(65535).metric(16_777_214);
    assert!(Gateway::new().set_up(&settings(&[low, high]).t1(1).t2(1).tries(1)).is_ok());
    assert!(Gateway::new().set_up(&settings(&[high; 8]).t1(65535).t2(65535).tries(255)).is_ok());
}

#[test]
fn every_mode_is_known_to_the_archive() {
    for mode in [Mode::Running, Mode::Restarting, Mode::Starting] {
        let s = Settings::new(SystemId([1; 6]), mode, 0).circuit(circuit());
        assert!(Gateway::new().set_up(&s).is_ok(), "{mode:?}");
    }
}

#[test]
fn each_fault_is_named() {
    let one = settings(&[circuit()]);
    assert_eq!(fault(one.t1(0)), "t1 is out of its range");
    assert_eq!(fault(one.t2(0)), "t2 is out of its range");
    assert_eq!(fault(one.tries(0)), "tries is out of its range");
    assert_eq!(fault(settings(&[])), "circuit is out of its range");
    assert_eq!(fault(settings(&[circuit(); 9])), "circuit is out of its range");
    let none = CircuitSettings::new(Kind::P2p, Levels::default(), Mac([2; 6]));
    assert_eq!(fault(settings(&[circuit(), none])), "circuit 2: levels is out of its range");
    assert_eq!(fault(settings(&[circuit().priority(128)])), "circuit 1: priority is out of its range");
    assert_eq!(fault(settings(&[circuit().hold(0)])), "circuit 1: hold is out of its range");
    assert_eq!(fault(settings(&[circuit(), circuit().metric(16_777_215)])), "circuit 2: metric is out of its range");
}
