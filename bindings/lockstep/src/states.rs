//! States of both layers side by side in one array of bytes, driven by the header's own functions.

use crate::draws::{Draws, Kind, Phase};
use crate::limits::STORE;
use crate::met::Met;
use crate::said::{Said, Slots};
use crate::scheduler::Scheduler;
use crate::store;
use crate::twin::{Twin, Twins};
use houghbreeze::raw::{self, hb_reply, STATE_SIZE};

/// Schedulers at even places, sites at odd ones.
const STATES: usize = 64;

/// Odd, so that no state lies at an even address by chance.
const GUARD: usize = STATE_SIZE + 1;

/// The most that a list has room for.
const LIST: usize = 310;

struct Beside {
    witness: Scheduler,
    slots: Slots,
    phase: Phase,
    /// Of a site.
    store: Option<Twin>,
}

pub struct States {
    images: Vec<u8>,
    /// The images as the last call left them.
    before: Vec<u8>,
    beside: Vec<Beside>,
    list: Twin,
    packet: Twins,
    outgoing: Twins,
}

/// A call that was made: its name, the archive's reply if it gives one, what the independent program says, and how many departures a burst asked for.
struct Made {
    name: &'static str,
    reply: Option<hb_reply>,
    said: Said,
    asked: usize,
}

impl States {
    pub fn new(draws: &mut Draws) -> Self {
        // a new state is all zeros; around the states lie bytes that are not
        let mut images = vec![0xa5; GUARD + STATES * STATE_SIZE + GUARD];
        images[GUARD..GUARD + STATES * STATE_SIZE].fill(0);
        let beside = (0..STATES).map(|place| Beside {
            witness: Scheduler::new(),
            slots: Slots::default(),
            phase: draws.phase(),
            store: (place % 2 == 1).then(|| Twin::new(STORE + 1, draws)),
        });
        let beside = beside.collect();
        States {
            before: images.clone(),
            images,
            beside,
            list: Twin::new(LIST, draws),
            packet: Twins::new(STORE + 1, draws),
            outgoing: Twins::new(STORE + 1, draws),
        }
    }

    pub fn call(&mut self, draws: &mut Draws, met: &mut Met) -> Result<(), String> {
        let place = draws.below(STATES);
        let kind = draws.kind(&mut self.beside[place].phase);
        let made = if place % 2 == 0 {
            self.scheduler_call(place, kind, draws, met)
        } else {
            self.site_call(place, kind, draws, met)
        };
        let Made {
            name,
            reply,
            said,
            asked,
        } = made?;
        met.said(name, said, asked);
        if let Some(reply) = reply {
            if reply != said.reply() {
                return Err(format!(
                    "{name} says {reply:?}, and must say {:?}",
                    said.reply()
                ));
            }
        }
        self.image_stands(place, said)
            .map_err(|fault| format!("{name}, {said:?}: {fault}"))
    }

    fn scheduler_call(
        &mut self,
        place: usize,
        kind: Kind,
        draws: &mut Draws,
        met: &mut Met,
    ) -> Result<Made, String> {
        let state = self.images[start(place)..]
            .as_mut_ptr()
            .cast::<raw::hb_scheduler>();
        let Beside {
            witness,
            slots,
            phase,
            ..
        } = &mut self.beside[place];
        let mut asked = 0;
        // Safety, here and below: the state lies whole in the array, and every buffer has the length that is passed.
        let (name, reply, said) = match kind {
            Kind::Reset => {
                unsafe { raw::hb_reset(state) };
                witness.reset();
                ("hb_reset", None, slots.reset())
            }
            Kind::Open => {
                let (flow, weight) = (draws.flow(phase), draws.weight());
                let reply = unsafe { raw::hb_open(state, flow, weight) };
                (
                    "hb_open",
                    Some(reply),
                    slots.opened(witness.open(flow as i64, weight as i64)),
                )
            }
            Kind::Offer => {
                let (flow, size) = (draws.flow(phase), draws.size());
                let reply = unsafe { raw::hb_offer(state, flow, size) };
                (
                    "hb_offer",
                    Some(reply),
                    slots.offered(flow as i64, witness.offer(flow as i64, size as i64)),
                )
            }
            Kind::Depart => {
                let reply = unsafe { raw::hb_depart(state) };
                (
                    "hb_depart",
                    Some(reply),
                    slots.departed(Ok(witness.depart())),
                )
            }
            Kind::Burst | Kind::Drain => {
                asked = draws.asked(kind);
                let length = draws.list_length(asked, LIST);
                let list = &mut self.list;
                list.fill(length, draws);
                let reply = unsafe {
                    raw::hb_burst(
                        state,
                        asked,
                        pointer(list, length, "list", draws, met),
                        length,
                    )
                };
                let told = witness.burst(asked, list.twin(length));
                let said = slots.counted(list.twin(length), told);
                same("the list", list)?;
                ("hb_burst", Some(reply), said)
            }
        };
        Ok(Made {
            name,
            reply,
            said,
            asked,
        })
    }

    fn site_call(
        &mut self,
        place: usize,
        kind: Kind,
        draws: &mut Draws,
        met: &mut Met,
    ) -> Result<Made, String> {
        let state = self.images[start(place)..]
            .as_mut_ptr()
            .cast::<raw::hb_site>();
        let Beside {
            witness,
            slots,
            phase,
            store: own,
        } = &mut self.beside[place];
        let own = own.as_mut().expect("a site has a store");
        let (name, reply, said) = match kind {
            Kind::Reset => {
                unsafe { raw::hb_site_reset(state) };
                witness.reset();
                ("hb_site_reset", None, slots.reset())
            }
            Kind::Open => {
                let (flow, weight) = (draws.flow(phase), draws.weight());
                let reply = unsafe { raw::hb_site_open(state, flow, weight) };
                (
                    "hb_site_open",
                    Some(reply),
                    slots.opened(witness.open(flow as i64, weight as i64)),
                )
            }
            Kind::Offer => {
                let (flow, length, store_length) =
                    (draws.flow(phase), draws.length(), draws.store_length());
                let packet = self.packet.of(length);
                packet.fill(length.min(512), draws);
                let from = pointer(packet, length, "packet", draws, met);
                let into = pointer(own, store_length, "store", draws, met);
                let reply =
                    unsafe { raw::hb_site_offer(state, flow, from, length, into, store_length) };
                let told = store::offer(
                    witness,
                    own.twin(store_length),
                    flow as i64,
                    packet.twin(length),
                );
                same("the packet", packet)?;
                (
                    "hb_site_offer",
                    Some(reply),
                    slots.offered(flow as i64, told),
                )
            }
            Kind::Depart | Kind::Burst | Kind::Drain => {
                let (store_length, length) = (draws.store_length(), draws.outgoing_length());
                let outgoing = self.outgoing.of(length);
                outgoing.fill(length.min(512), draws);
                let from = pointer(own, store_length, "store", draws, met);
                let into = pointer(outgoing, length, "outgoing", draws, met);
                let reply = unsafe { raw::hb_site_depart(state, from, store_length, into, length) };
                let told = store::depart(witness, own.twin(store_length), outgoing.twin(length));
                same("outgoing", outgoing)?;
                ("hb_site_depart", Some(reply), slots.departed(told))
            }
        };
        same("the store", own)?;
        Ok(Made {
            name,
            reply,
            said,
            asked: 0,
        })
    }

    /// Only the call's own state may have changed, and not by a refusal or idle; a reset state is all zeros.
    fn image_stands(&mut self, place: usize, said: Said) -> Result<(), String> {
        let own = start(place)..start(place) + STATE_SIZE;
        if said.changes_nothing() && self.images[own.clone()] != self.before[own.clone()] {
            return Err(format!("state {place} changed"));
        }
        if said == Said::Reset && self.images[own.clone()].iter().any(|&byte| byte != 0) {
            return Err(format!("state {place} is not all zeros"));
        }
        for near in [
            own.start - STATE_SIZE..own.start,
            own.end..own.end + STATE_SIZE,
        ] {
            if self.images[near.clone()] != self.before[near] {
                return Err(format!("a neighbour of state {place} changed"));
            }
        }
        self.before[own.clone()].copy_from_slice(&self.images[own]);
        Ok(())
    }

    /// Nothing far off was touched by any call.
    pub fn all_stand(&self) -> Result<(), String> {
        if self.images != self.before {
            return Err("a state far off changed".to_string());
        }
        for beside in &self.beside {
            beside
                .store
                .as_ref()
                .map_or(Ok(()), |own| same("a store far off", own))?;
        }
        Ok(())
    }
}

fn start(place: usize) -> usize {
    GUARD + place * STATE_SIZE
}

/// For the archive; of length 0 a null pointer every other time.
fn pointer(
    twin: &mut Twin,
    length: usize,
    buffer: &str,
    draws: &mut Draws,
    met: &mut Met,
) -> *mut u8 {
    let null = length == 0 && draws.one_in(2);
    if null {
        met.null(buffer);
    }
    twin.pointer(length, null)
}

fn same(buffer: &str, twin: &Twin) -> Result<(), String> {
    if twin.agrees() {
        Ok(())
    } else {
        Err(format!("{buffer} differs, or a byte around it"))
    }
}
