//! A gateway is memory of its owner's: before set-up, in a `static`, and after a refused set-up.
use isis_gr::{
    Circuit, CircuitSettings, Frames, Gateway, Kind, Level, Levels, Mac, Mode, Refusal, Settings, SystemId, Timers, REPLY_OCTETS,
};
use std::sync::Mutex;

static GATEWAY: Mutex<Gateway> = Mutex::new(Gateway::new());
static FRAMES: Mutex<Frames> = Mutex::new(Frames::new());

fn first() -> Circuit {
    Circuit::new(1).expect("1 to 8")
}

fn settings(mode: Mode) -> Settings {
    Settings::new(SystemId([1; 6]), mode, 100).circuit(CircuitSettings::new(Kind::Lan, Levels::BOTH, Mac([2; 6])))
}

#[test]
fn the_sizes_are_the_archives() {
    // SAFETY: both take nothing and answer a number.
    let (words, octets) = unsafe { (isis_gr_sys::isis_gr_raw_gateway_words(), isis_gr_sys::isis_gr_raw_frame_octets()) };
    assert_eq!((words as usize, octets as usize), (Gateway::WORDS, Frames::OCTETS));
    assert_eq!((Gateway::WORDS, size_of::<Gateway>()), (656, 5_248), "640 words, and two for each circuit's unfinished frame");
    assert_eq!((Frames::OCTETS, size_of::<Frames>()), (8 * 1_500, 12_000));
}

#[test]
fn memory_that_is_not_set_up_holds_no_circuit() {
    for mut gateway in [Gateway::new(), Gateway::default(), Gateway::from_words([u64::MAX; Gateway::WORDS])] {
        let before = gateway.clone();
        let mut reply = [0; REPLY_OCTETS];
        assert_eq!(gateway.receive(first(), Mac([2; 6]), &[], &mut reply), Err(Refusal::NoCircuit));
        assert_eq!(gateway.begin_frame(first(), Mac([2; 6])), Err(Refusal::NoCircuit));
        let mut frames = Frames::from_octets([0xA5; Frames::OCTETS]);
        assert_eq!(gateway.add_chunk(&mut frames, first(), &[1]), Err(Refusal::NoCircuit));
        assert_eq!(gateway.end_frame(&frames, first(), &mut reply), Err(Refusal::NoCircuit));
        assert_eq!(frames.octets(), &[0xA5; Frames::OCTETS]);
        assert_eq!(gateway.release(first()), Err(Refusal::NoCircuit));
        assert_eq!(gateway.clear(first()), Err(Refusal::NoCircuit));
        assert_eq!(gateway.csnp_complete(first(), Level::One), Err(Refusal::NoCircuit));
        assert_eq!(gateway.database_complete(Level::One), Err(Refusal::NoCircuit));
        assert_eq!(gateway.link_metric(first()), Err(Refusal::NoCircuit));
        assert_eq!(gateway.next_hello_flags(first(), Level::One), Err(Refusal::NoCircuit));
        assert_eq!(gateway.waiting().count, 0);
        let tick = gateway.tick(7).expect("a tick is done");
        assert!(tick.lost.is_empty() && tick.hellos.is_empty() && tick.timers == Timers::Idle);
        assert_eq!(gateway.words(), before.words());
    }
}

#[test]
fn a_static_gateway_is_set_up_in_place() {
    let (mut gateway, mut frames) = (GATEWAY.lock().expect("one test"), FRAMES.lock().expect("one test"));
    assert_eq!(gateway.set_up(&settings(Mode::Restarting)).expect("in range").orders.len(), 2, "a LAN of both levels");
    assert_eq!((gateway.waiting().count, gateway.waiting().lowest), (2, Some(first())));
    gateway.begin_frame(first(), Mac([3; 6])).expect("a circuit");
    gateway.add_chunk(&mut frames, first(), b"half a frame").expect("it fits");
    // and again: what it was does not count
    assert!(gateway.set_up(&settings(Mode::Running)).expect("in range").is_empty());
    assert_eq!(gateway.waiting().count, 0);
    assert_eq!(gateway.add_chunk(&mut frames, first(), b"the rest"), Err(Refusal::NotBegun));
}

#[test]
fn setup_does_not_depend_on_what_the_memory_was() {
    let mut fresh = Gateway::new();
    fresh.set_up(&settings(Mode::Restarting)).expect("in range");
    let mut used = Gateway::from_words([0x0101_0101_0101_0101; Gateway::WORDS]);
    used.set_up(&settings(Mode::Restarting)).expect("in range");
    assert_eq!(fresh.waiting(), used.waiting());
    assert_eq!(fresh.tick(103), used.tick(103));
    // no frame is begun, whatever the memory was: circuits that are not there are refused 1
    for number in 1..=8 {
        let circuit = Circuit::new(number).expect("1 to 8");
        let told = if number == 1 { Refusal::NotBegun } else { Refusal::NoCircuit };
        assert_eq!(used.end_frame(&Frames::default(), circuit, &mut [0; REPLY_OCTETS]), Err(told));
    }
}

#[test]
fn a_refused_setup_leaves_the_memory_as_it_was() {
    let mut gateway = Gateway::new();
    gateway.set_up(&settings(Mode::Restarting)).expect("in range");
    gateway.begin_frame(first(), Mac([3; 6])).expect("a circuit");
    let before = gateway.clone();
    assert!(gateway.set_up(&settings(Mode::Running).t1(0)).is_err());
    assert_eq!(gateway.words(), before.words());
    assert_eq!(gateway.add_chunk(&mut Frames::new(), first(), &[]), Ok(()), "the unfinished frame is there still");
}

#[test]
fn frames_print_and_copy_as_memory() {
    let mut frames = Frames::new();
    assert_eq!((format!("{frames:?}"), frames.octets()), ("Frames { .. }".to_owned(), &[0; Frames::OCTETS]));
    let mut gateway = Gateway::new();
    gateway.set_up(&settings(Mode::Running)).expect("in range");
    gateway.begin_frame(first(), Mac([3; 6])).expect("a circuit");
    gateway.add_chunk(&mut frames, first(), b"half a frame").expect("it fits");
    assert_eq!(&frames.octets()[..12], b"half a frame");
    assert_eq!(&frames.octets()[12..], &[0; Frames::OCTETS - 12]);
    assert_eq!(frames.clone().octets(), frames.octets());
}
