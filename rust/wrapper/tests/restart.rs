//! Two gateways on one P2P link: one restarts, the other helps.
mod common;
use common::ends::*;
use isis_gr::{Ack, Level, Levels, Mark, Mode, Phase, Timers, REPLY_OCTETS};

#[test]
fn a_neighbour_that_restarts_keeps_its_adjacency() {
    let mut helper = End::new(1, Mode::Running, 100);
    let mut old = End::new(2, Mode::Running, 100);
    let mut reply = [0; REPLY_OCTETS];
    // both come up
    helper.gateway.receive(link(), old.mac, &old.hello(1, &old.own_tlv()), &mut reply).expect("a hello");
    old.gateway.receive(link(), helper.mac, &helper.hello(0, &helper.own_tlv()), &mut reply).expect("a hello");
    assert_eq!(helper.phase_of(&old), Some(Phase::Up(Mark::Clear)));

    // the control plane of one starts anew, and asks for its adjacency
    let mut new = End::new(2, Mode::Restarting, 110);
    helper.gateway.tick(110).expect("later");
    let request = new.hello(2, &new.own_tlv());
    let answer = helper.gateway.receive(link(), new.mac, &request, &mut reply).expect("RR");
    assert_eq!(answer.reply.map(|r| (r.ack, r.remaining)), Some((Ack::Restart, 30)));
    assert_eq!(answer.csnps, Levels::ONE);
    assert_eq!(helper.phase_of(&new), Some(Phase::Up(Mark::Restart)));

    // the reply, as it was written, is an acknowledgement to the other end
    new.gateway.receive(link(), helper.mac, &helper.hello(0, &reply), &mut [0; REPLY_OCTETS]).expect("RA");
    assert_eq!(new.phase_of(&helper), Some(Phase::Up(Mark::Clear)));
    assert_eq!(new.gateway.waiting().lowest, Some(link()), "T1 waits for the CSNPs");
    new.gateway.csnp_complete(link(), Level::One).expect("restarting");
    assert_eq!(new.gateway.waiting().count, 0);
    let end = new.gateway.database_complete(Level::One).expect("restarting");
    assert!(matches!(end, Timers::Ended { spf: Levels::ONE, .. }));

    // the next hello carries no RR, and ends the helper's mark
    helper.gateway.tick(115).expect("later");
    helper.gateway.receive(link(), new.mac, &new.hello(0, &new.own_tlv()), &mut reply).expect("a hello");
    assert_eq!(helper.phase_of(&new), Some(Phase::Up(Mark::Clear)));
}
