//! What holds of every state that calls give, as assertions: first what document 01 states, each
//! under its own words, then what only follows from its steps.

use super::{allowance, Flow, Packet, Scheduler, Turn};
use crate::limits::{FLOWS, MAX_ALLOWANCE, MAX_MARK, MAX_SIZE, MAX_SURPLUS, MAX_WEIGHT, QUEUE};

impl Scheduler {
    /// Panics if a rule is broken.
    pub fn assert_rules(&self) {
        self.assert_stated();
        self.assert_consequences();
    }

    // Stated by document 01.

    fn assert_stated(&self) {
        self.assert_numbers();
        for (&number, flow) in &self.flows {
            self.assert_place(number, flow);
            flow.assert_slots();
        }
        if let Some(turn) = &self.turn {
            self.assert_open_turn(turn);
        }
    }

    /// The table under "Numbers".
    fn assert_numbers(&self) {
        assert!((0..=MAX_MARK).contains(&self.previous_max_sc));
        assert!((0..=MAX_MARK).contains(&self.max_sc));
        for (number, flow) in &self.flows {
            assert!((0..FLOWS).contains(number));
            flow.assert_numbers();
        }
        if let Some(turn) = &self.turn {
            assert!((1..=MAX_ALLOWANCE).contains(&turn.allowance));
        }
    }

    /// "A flow is active exactly when it has a packet waiting. It stands once in the line, or is
    /// the flow of the open turn, never both."
    fn assert_place(&self, number: i64, flow: &Flow) {
        let in_line = self.active_list.iter().filter(|&&f| f == number).count();
        let in_turn = usize::from(self.serving() == Some(number));
        let active = usize::from(!flow.queue.is_empty());
        assert_eq!(in_line + in_turn, active, "flow {number} stands wrong");
    }

    /// "The turn ends if bytes sent is at least the allowance, or the queue is now empty;
    /// otherwise it stays open." "It keeps every allowance at least the flow's weight."
    fn assert_open_turn(&self, turn: &Turn) {
        let flow = &self.flows[&turn.flow];
        assert!(turn.sent < turn.allowance);
        assert!(!flow.queue.is_empty());
        assert!(turn.allowance >= flow.weight);
    }

    // Not stated by document 01: these follow from its steps.

    fn assert_consequences(&self) {
        self.assert_line_is_open();
        self.assert_surplus_in_line_only();
        self.assert_visits();
        self.assert_next_allowances();
    }

    /// Only an open flow is offered packets, so only open flows become active.
    fn assert_line_is_open(&self) {
        let mut line = self.active_list.iter();
        assert!(line.all(|flow| self.flows.contains_key(flow)));
    }

    /// Step 2 clears the surplus of the turn's flow and step 6 that of a flow that ran empty.
    fn assert_surplus_in_line_only(&self) {
        for (number, flow) in &self.flows {
            assert!(flow.surplus == 0 || self.active_list.contains(number));
        }
    }

    /// A turn that stays open has sent a packet, and its visit is counted off only at its end.
    /// Whoever is still to be visited stands in the line, since nobody but its head leaves it.
    fn assert_visits(&self) {
        let in_turn = usize::from(self.turn.is_some());
        assert!(self.turn.map_or(true, |turn| turn.sent > 0));
        assert!(self.visit_count >= in_turn);
        assert!(self.visit_count - in_turn <= self.active_list.len());
    }

    /// "It keeps every allowance at least the flow's weight", asked of every flow in the line
    /// before its turn comes: those still to be visited stand first and draw on this round's
    /// mark, the others on the next one's, which is the running mark or more.
    fn assert_next_allowances(&self) {
        let to_visit = self.visit_count - usize::from(self.turn.is_some());
        for (place, number) in self.active_list.iter().enumerate() {
            let flow = &self.flows[number];
            let mark = if place < to_visit {
                self.previous_max_sc
            } else {
                self.max_sc
            };
            assert!(allowance(flow.weight, mark, flow.surplus) >= flow.weight);
        }
    }
}

impl Flow {
    fn assert_numbers(&self) {
        assert!((1..=MAX_WEIGHT).contains(&self.weight));
        assert!((0..=MAX_SURPLUS).contains(&self.surplus));
        assert!((0..=QUEUE).contains(&(self.queue.len() as i64)));
        for Packet { size, .. } in &self.queue {
            assert!((1..=MAX_SIZE).contains(size));
        }
    }

    /// "Each later one takes the next slot, 7 being followed by 0": the waiting packets' slots
    /// follow each other, up to the slot that the next packet takes.
    fn assert_slots(&self) {
        for (place, packet) in self.queue.iter().enumerate() {
            let behind = (self.queue.len() - place) as i64;
            assert_eq!(packet.slot, (self.next_slot - behind).rem_euclid(QUEUE));
        }
    }
}
