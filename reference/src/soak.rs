//! The reference against itself: random traces and random calls under every rule.

mod copies;
mod watch;

use crate::account::Account;
use crate::calls::{Made, OrderCalls, Part, StoreCalls};
use crate::coverage::Coverage;
use crate::event::{events, Event};
use crate::scheduler::Scheduler;
use crate::trace::{kind_of, trace};
use copies::Copies;
use watch::{Watch, ORDER_CALLS, STORE_CALLS, TRACES};

/// Random calls of each layer for each trace.
const CALLS_PER_TRACE: u32 = 100;

/// The traces of the seeds below `seeds`, and random calls. Panics if a rule is broken.
pub fn soak(seeds: u32) -> [Coverage; 3] {
    let calls = CALLS_PER_TRACE * seeds;
    [
        soak_traces(seeds),
        soak_order_calls(seeds, calls),
        soak_store_calls(seeds, calls),
    ]
}

fn soak_traces(seeds: u32) -> Coverage {
    let mut watch = Watch::new(format!("{seeds} traces"), TRACES);
    for seed in (0..seeds).map(u64::from) {
        let input = trace(kind_of(seed), seed).expect("the kind exists");
        let mut run = Run::new(&mut watch);
        for event in events(&input).map_while(|event| event) {
            run.event(event);
        }
    }
    watch.coverage
}

/// One trace, beside demand 3's account.
struct Run<'a> {
    scheduler: Scheduler,
    account: Account,
    watch: &'a mut Watch,
}

impl<'a> Run<'a> {
    fn new(watch: &'a mut Watch) -> Self {
        Run {
            scheduler: Scheduler::new(),
            account: Account::new(),
            watch,
        }
    }

    fn event(&mut self, event: Event) {
        match event {
            Event::Open { flow, weight } => {
                let reply = self.scheduler.open(flow, weight);
                self.watch.opened(reply);
            }
            Event::Arrive { flow, size } => self.arrive(flow, size),
            Event::Send { count } => self.send(count),
        }
        self.scheduler.assert_rules();
    }

    fn arrive(&mut self, flow: i64, size: i64) {
        self.watch.before(&self.scheduler);
        let reply = self.scheduler.offer(flow, size);
        if reply.is_ok() {
            self.account.accepted(flow, &self.scheduler);
        }
        self.watch.offered(flow, reply, &self.scheduler);
    }

    fn send(&mut self, count: i64) {
        for _ in 0..count {
            self.watch.before(&self.scheduler);
            let departure = self.scheduler.depart();
            self.watch.departed(&departure, &self.scheduler);
            self.scheduler.assert_rules();
            match departure {
                Some(departure) => self.account.departed(&departure, &self.scheduler),
                None => return,
            }
        }
    }
}

/// Each burst is made again by single calls.
fn soak_order_calls(seed: u32, calls: u32) -> Coverage {
    let mut watch = Watch::new(format!("{calls} order calls"), ORDER_CALLS);
    let mut part = OrderCalls::new(seed);
    for _ in 0..calls {
        let (before, mut list) = (part.scheduler.clone(), part.list);
        watch.before(&before);
        let made = part.call();
        watch.made(&made, &part.scheduler);
        assert_unchanged(&made, &before, &part.scheduler);
        if let Made::Burst {
            asked,
            reply: Ok(count),
            ..
        } = made
        {
            let mut single = before;
            assert_eq!(
                single_calls(asked, &mut single, &mut list, &mut watch),
                count
            );
            assert!(part.scheduler == single, "a burst is not its single calls");
        }
        assert!(part.list == list, "the list is not as expected");
        part.scheduler.assert_rules();
    }
    watch.coverage
}

/// Up to so many departures, their flows in the list. Gives how many there were.
fn single_calls(
    asked: usize,
    scheduler: &mut Scheduler,
    list: &mut [u8],
    watch: &mut Watch,
) -> usize {
    for (made, entry) in list.iter_mut().enumerate().take(asked) {
        watch.before(scheduler);
        let departure = scheduler.depart();
        watch.departed(&departure, scheduler);
        match departure {
            Some(departure) => *entry = departure.flow as u8,
            None => return made,
        }
    }
    asked
}

/// The store and the outgoing buffer are held to plain copies of what was accepted.
fn soak_store_calls(seed: u32, calls: u32) -> Coverage {
    let mut watch = Watch::new(format!("{calls} store calls"), STORE_CALLS);
    let mut part = StoreCalls::new(seed);
    let mut copies = Copies::new(&part);
    for _ in 0..calls {
        let before = part.scheduler.clone();
        watch.before(&before);
        let made = part.call();
        watch.made(&made, &part.scheduler);
        copies.follow(&made, &part);
        assert_unchanged(&made, &before, &part.scheduler);
        part.scheduler.assert_rules();
    }
    watch.coverage
}

/// A refusal and idle change no scheduler.
fn assert_unchanged(made: &Made, before: &Scheduler, after: &Scheduler) {
    let idle = matches!(made, Made::Departure(Ok(None)));
    if idle || made.refusal().is_some() {
        assert!(before == after, "a refusal or idle changed the scheduler");
    }
}
