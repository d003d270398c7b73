//! Two gateways on one P2P link. Each has the clock that the test gives it, and the test carries out every order.
use isis_gr::{Circuit, CircuitSettings, Flags, Gateway, Kind, Level, Levels, Mac, Mode, Phase, Record, Settings, SystemId};

/// One end of the link.
pub struct End {
    pub gateway: Gateway,
    pub system: SystemId,
    pub mac: Mac,
}

/// The link, the one circuit of both.
pub fn link() -> Circuit {
    Circuit::new(1).expect("1 to 8")
}

impl End {
    /// The end of a number, with level 1; the hello that a restart orders has RR.
    pub fn new(number: u8, mode: Mode, clock: u32) -> End {
        let mac = Mac([2, 0, 0, 0, 0, number]);
        let system = SystemId([0x19, 0x21, 0x68, 0, 0x10, number]);
        let p2p = CircuitSettings::new(Kind::P2p, Levels::ONE, mac).extended_circuit_id(u32::from(number));
        let mut gateway = Gateway::new();
        let hellos = gateway.set_up(&Settings::new(system, mode, clock).circuit(p2p)).expect("in range");
        assert_eq!(hellos.has(link(), Level::One), mode == Mode::Restarting);
        assert_eq!(hellos.flags, if mode == Mode::Restarting { Flags::RR } else { Flags::default() });
        End { gateway, system, mac }
    }

    /// A hello of this end: three-way state, and a Restart TLV's octets.
    pub fn hello(&self, state: u8, restart: &[u8]) -> Vec<u8> {
        let mut f = vec![0x83, 20, 1, 0, 17, 1, 0, 0, 1];
        f.extend(self.system.0);
        f.extend([0, 30, 0, 0, 1, 240, 1, state]);
        f.extend(restart);
        let length = f.len() as u8;
        f[18] = length;
        f
    }

    /// A Restart TLV with the flags of the next hello.
    pub fn own_tlv(&self) -> [u8; 3] {
        [211, 1, self.gateway.next_hello_flags(link(), Level::One).expect("one circuit").octet()]
    }

    /// The record of the other end.
    pub fn record_of(&self, other: &End) -> Option<Record> {
        self.gateway.look_up_p2p(link(), other.system).expect("one circuit")
    }

    /// Its state.
    pub fn phase_of(&self, other: &End) -> Option<Phase> {
        self.record_of(other).map(|record| record.phase)
    }
}
