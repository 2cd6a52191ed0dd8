//! The signalling watch of request A1 in document 02, in plain Rust: both ends of G.764 6.2, 6.4 and
//! 6.5, written without a look at the proved code.

use crate::document::Refusal::{self, Clock, FourBits, NotOffered, Record};
use crate::document::{refuse_if, CLOCK_MAX, FOUR_BITS};

const NONE: u8 = 0;
const PROVISIONS: [u8; 5] = [NONE, 1, 2, 4, 16];
const REFRESH_SECONDS: [u32; 4] = [1, 5, 10, 20];
/// TSIG_KA is one of these many halves of TSIG_REF.
const KEEPALIVE_HALVES: [u32; 4] = [3, 5, 7, 9];

#[derive(Clone, Copy, Debug, PartialEq, Eq)]
pub enum Originating {
    Norm,
    Alarm,
}

#[derive(Clone, Copy, Debug, PartialEq, Eq)]
pub enum Terminating {
    Norm,
    LossAlarm,
    RemoteAlarm,
}

#[derive(Clone, Copy, Debug, PartialEq, Eq)]
pub enum Event {
    Passing,
    Reading { bits: u8, facility_alarm: bool },
    Taken { na: u8 },
}

#[derive(Clone, Copy, Debug, PartialEq, Eq)]
pub enum Cause {
    Transition,
    Refresh,
}

/// A signalling frame that is to be sent.
#[derive(Clone, Copy, Debug, PartialEq, Eq)]
pub struct Sending {
    pub cause: Cause,
    pub bits: u8,
    pub na: bool,
}

#[derive(Clone, Copy, Debug, PartialEq, Eq)]
pub enum Conditioning {
    Begins,
    Ends,
}

/// What an event calls for.
#[derive(Clone, Copy, Debug, Default, PartialEq, Eq)]
pub struct Told {
    pub sending: Option<Sending>,
    pub conditioning: Option<Conditioning>,
}

/// Both ends of one circuit. The timers are in ms, `states` is 0 for none and 1 for refresh only.
#[derive(Clone, Copy, Debug, PartialEq, Eq)]
pub struct Watch {
    pub states: u8,
    pub refresh: u32,
    pub keepalive: u32,
    pub originating: Originating,
    pub terminating: Terminating,
    pub bits: u8,
    pub last_sent: u64,
    pub last_taken: u64,
    pub last_clock: u64,
}

impl Watch {
    pub fn start(states: u8, refresh: u32, keepalive: u32, clock: u64) -> Result<Watch, Refusal> {
        let watch = Watch {
            states,
            refresh,
            keepalive,
            originating: Originating::Norm,
            terminating: Terminating::Norm,
            bits: 0,
            last_sent: clock,
            last_taken: clock,
            last_clock: clock,
        };
        refuse_if(!watch.offered(), NotOffered)?;
        refuse_if(clock > CLOCK_MAX, Clock)?;
        Ok(watch)
    }

    /// A refused event leaves the watch as it was.
    pub fn tell(&mut self, clock: u64, event: Event) -> Result<Told, Refusal> {
        self.judge(clock, event)?;
        let told = if self.states == NONE { Told::default() } else { self.take(clock, event) };
        self.last_clock = clock;
        Ok(told)
    }

    fn judge(&self, clock: u64, event: Event) -> Result<(), Refusal> {
        refuse_if(!self.offered(), NotOffered)?;
        let latest_kept = self.last_sent.max(self.last_taken);
        refuse_if(self.last_clock > CLOCK_MAX || latest_kept > self.last_clock, Record)?;
        refuse_if(!(self.last_clock..=CLOCK_MAX).contains(&clock), Clock)?;
        let told_too_much = match event {
            Event::Passing => false,
            Event::Reading { bits, .. } => bits > FOUR_BITS,
            Event::Taken { na } => na > 1,
        };
        refuse_if(self.bits > FOUR_BITS || told_too_much, FourBits)
    }

    fn take(&mut self, clock: u64, event: Event) -> Told {
        let conditioned_before = self.conditioned();
        if clock >= self.last_taken + u64::from(self.keepalive) {
            self.terminating = Terminating::LossAlarm;
        }
        let cause = match self.bring(clock, event) {
            None if clock >= self.last_sent + u64::from(self.refresh) => Some(Cause::Refresh),
            transition => transition,
        };
        let sending = cause.map(|cause| {
            self.last_sent = clock;
            Sending { cause, bits: self.bits, na: self.alarmed() }
        });
        let conditioning = match (conditioned_before, self.conditioned()) {
            (false, true) => Some(Conditioning::Begins),
            (true, false) => Some(Conditioning::Ends),
            _ => None,
        };
        Told { sending, conditioning }
    }

    /// Takes in what comes with the event itself, and says if that is a transition.
    fn bring(&mut self, clock: u64, event: Event) -> Option<Cause> {
        match event {
            Event::Passing => None,
            Event::Reading { facility_alarm: true, .. } => {
                self.originating = Originating::Alarm;
                None
            }
            Event::Reading { bits, facility_alarm: false } => {
                self.originating = Originating::Norm;
                let changed = self.bits ^ bits;
                self.bits = bits;
                (changed & self.bits_in_use() != 0).then_some(Cause::Transition)
            }
            Event::Taken { na } => {
                self.terminating = if na == 0 { Terminating::Norm } else { Terminating::RemoteAlarm };
                self.last_taken = clock;
                None
            }
        }
    }

    fn offered(&self) -> bool {
        PROVISIONS.contains(&self.states)
            && REFRESH_SECONDS.iter().any(|seconds| seconds * 1000 == self.refresh)
            && KEEPALIVE_HALVES.iter().any(|halves| halves * (self.refresh / 2) == self.keepalive)
    }

    /// A, B, C, D are 8, 4, 2, 1.
    pub fn bits_in_use(&self) -> u8 {
        match self.states {
            2 => 0b1000,
            4 => 0b1100,
            16 => 0b1111,
            _ => 0,
        }
    }

    fn conditioned(&self) -> bool {
        self.terminating != Terminating::Norm
    }

    /// What N/A says of this side.
    fn alarmed(&self) -> bool {
        self.originating == Originating::Alarm || self.terminating == Terminating::LossAlarm
    }
}

#[cfg(test)]
mod tests {
    use super::*;
    use Conditioning::{Begins, Ends};
    use Event::{Passing, Taken};

    const QUIET: Result<Told, Refusal> = Ok(Told { sending: None, conditioning: None });

    /// With the default times, 10 s and 25 s.
    fn started(states: u8, clock: u64) -> Watch {
        Watch::start(states, 10_000, 25_000, clock).unwrap()
    }

    fn reading(bits: u8) -> Event {
        Event::Reading { bits, facility_alarm: false }
    }

    fn alarm(bits: u8) -> Event {
        Event::Reading { bits, facility_alarm: true }
    }

    fn transition(bits: u8, na: bool) -> Result<Told, Refusal> {
        let sending = Some(Sending { cause: Cause::Transition, bits, na });
        Ok(Told { sending, conditioning: None })
    }

    fn refresh(bits: u8, na: bool) -> Result<Told, Refusal> {
        let sending = Some(Sending { cause: Cause::Refresh, bits, na });
        Ok(Told { sending, conditioning: None })
    }

    /// The same, with conditioning changed as well.
    fn and(change: Conditioning, told: Result<Told, Refusal>) -> Result<Told, Refusal> {
        told.map(|told| Told { conditioning: Some(change), ..told })
    }

    #[test]
    fn offered_timers() {
        let offered = |refresh| {
            let starts = |keepalive: &u32| Watch::start(16, refresh, *keepalive, 0).is_ok();
            (0..100_000).filter(starts).collect::<Vec<u32>>()
        };
        assert_eq!(offered(1000), [1500, 2500, 3500, 4500]);
        assert_eq!(offered(5000), [7500, 12500, 17500, 22500]);
        assert_eq!(offered(10000), [15000, 25000, 35000, 45000]);
        assert_eq!(offered(20000), [30000, 50000, 70000, 90000]);
        assert!([0, 1, 999, 1001, 2000, 15000, 40000, u32::MAX].iter().all(|refresh| offered(*refresh).is_empty()));
        let states = |states: &u8| Watch::start(*states, 10_000, 25_000, 0).is_ok();
        assert_eq!((0..=255).filter(states).collect::<Vec<u8>>(), [0, 1, 2, 4, 16]);
    }

    #[test]
    fn a_trunk_that_dies_and_comes_back() {
        // The near end takes nothing more after 3 s; what it sends still arrives at once.
        let (mut near, mut far) = (started(4, 0), started(4, 0));
        assert_eq!(near.tell(2000, reading(8)), transition(8, false));
        assert_eq!(far.tell(2000, Taken { na: 0 }), QUIET);
        assert_eq!(far.tell(3000, reading(4)), transition(4, false));
        assert_eq!(near.tell(3000, Taken { na: 0 }), QUIET);

        assert_eq!(near.tell(12000, Passing), refresh(8, false));
        assert_eq!(far.tell(12000, Taken { na: 0 }), QUIET);
        assert_eq!(far.tell(13000, Passing), refresh(4, false));
        assert_eq!(near.tell(22000, Passing), refresh(8, false));
        assert_eq!(far.tell(22000, Taken { na: 0 }), QUIET);
        assert_eq!(far.tell(23000, Passing), refresh(4, false));

        // 28 s: TSIG_KA runs out at the near end, and its next frame tells the far end so.
        assert_eq!(near.tell(27999, Passing), QUIET);
        assert_eq!(near.tell(28000, Passing), and(Begins, QUIET));
        assert_eq!(near.terminating, Terminating::LossAlarm);
        assert_eq!(near.tell(32000, Passing), refresh(8, true));
        assert_eq!(far.tell(32000, Taken { na: 1 }), and(Begins, QUIET));
        assert_eq!(far.terminating, Terminating::RemoteAlarm);
        // In R_ALARM the far end still says 0: it has heard the near end in time.
        assert_eq!(far.tell(33000, Passing), refresh(4, false));

        // The trunk is back at 43 s, and two frames mend both ends.
        assert_eq!(near.tell(42000, Passing), refresh(8, true));
        assert_eq!(far.tell(42000, Taken { na: 1 }), QUIET);
        assert_eq!(far.tell(43000, Passing), refresh(4, false));
        assert_eq!(near.tell(43000, Taken { na: 0 }), and(Ends, QUIET));
        assert_eq!(near.tell(52000, Passing), refresh(8, false));
        assert_eq!(far.tell(52000, Taken { na: 0 }), and(Ends, QUIET));
        assert_eq!([near.terminating, far.terminating], [Terminating::Norm; 2]);
    }

    #[test]
    fn both_ends_lose_the_trunk() {
        // Neither hears the other: both come to L_ALARM and say so.
        let mut watch = started(16, 500);
        assert_eq!(watch.tell(10500, Passing), refresh(0, false));
        assert_eq!(watch.tell(25500, Passing), and(Begins, refresh(0, true)));
        assert_eq!(watch.tell(30000, reading(9)), transition(9, true));
        // The first frame heard is the other end's, sent in L_ALARM: R_ALARM, conditioning goes on.
        assert_eq!(watch.tell(36000, Taken { na: 1 }), QUIET);
        assert_eq!(watch.terminating, Terminating::RemoteAlarm);
        assert_eq!(watch.tell(40000, Passing), refresh(9, false));
        assert_eq!(watch.tell(46000, Taken { na: 0 }), and(Ends, QUIET));
    }

    #[test]
    fn edges_of_the_timers() {
        for (refresh_time, keepalive) in [(1000, 1500), (5000, 22500), (10000, 25000), (20000, 90000)] {
            let fresh = Watch::start(1, refresh_time, keepalive, 77).unwrap();
            let tell = |clock: u32| {
                let mut watch = fresh;
                let told = watch.tell(77 + u64::from(clock), Passing);
                (told, watch.terminating)
            };
            assert_eq!(tell(refresh_time - 1), (QUIET, Terminating::Norm));
            assert_eq!(tell(refresh_time), (refresh(0, false), Terminating::Norm));
            assert_eq!(tell(refresh_time + 1), (refresh(0, false), Terminating::Norm));
            assert_eq!(tell(keepalive - 1), (refresh(0, false), Terminating::Norm));
            assert_eq!(tell(keepalive), (and(Begins, refresh(0, true)), Terminating::LossAlarm));
            assert_eq!(tell(keepalive + 1), (and(Begins, refresh(0, true)), Terminating::LossAlarm));
        }
        // Each timer goes on from its own kind of frame, a refresh from either cause.
        let mut watch = started(2, 0);
        assert_eq!(watch.tell(9999, reading(8)), transition(8, false));
        assert_eq!(watch.tell(19998, Passing), QUIET);
        assert_eq!(watch.tell(19999, Passing), refresh(8, false));
        assert_eq!(watch.tell(24999, Taken { na: 0 }), QUIET);
        assert_eq!(watch.tell(49998, Passing), refresh(8, false));
        assert_eq!(watch.tell(49999, Passing), and(Begins, QUIET));
    }

    #[test]
    fn a_refresh_is_not_sent_beside_a_transition() {
        let mut watch = started(16, 0);
        assert_eq!(watch.tell(10000, reading(1)), transition(1, false));
        assert_eq!(watch.tell(10000, Passing), QUIET);
        assert_eq!(watch.tell(20000, reading(1)), refresh(1, false));
    }

    #[test]
    fn bits_are_frozen_in_alarm() {
        let mut watch = started(16, 0);
        assert_eq!(watch.tell(10, reading(5)), transition(5, false));
        assert_eq!(watch.tell(20, alarm(10)), QUIET);
        assert_eq!((watch.originating, watch.bits), (Originating::Alarm, 5));
        assert_eq!(watch.tell(10010, alarm(3)), refresh(5, true));
        assert_eq!(watch.tell(20010, Passing), refresh(5, true));
        // What changed meanwhile is a transition when ALARM ends, what did not is none.
        let mut unchanged = watch;
        assert_eq!(watch.tell(20020, reading(3)), transition(3, false));
        assert_eq!(unchanged.tell(20020, reading(5)), QUIET);
        assert_eq!([watch.originating, unchanged.originating], [Originating::Norm; 2]);
    }

    #[test]
    fn unused_bits_are_kept_and_cause_nothing() {
        for (states, in_use) in [(1, 0), (2, 8), (4, 12), (16, 15)] {
            for (before, after) in (0..16).flat_map(|before| (0..16).map(move |after| (before, after))) {
                let mut watch = Watch { bits: before, ..started(states, 0) };
                let differs = before & in_use != after & in_use;
                let right = if differs { transition(after, false) } else { QUIET };
                assert_eq!((watch.tell(1, reading(after)), watch.bits), (right, after));
                if !differs {
                    assert_eq!(watch.tell(10000, Passing), refresh(after, false));
                }
            }
        }
    }

    #[test]
    fn conditioning_is_the_net_change() {
        let told = |terminating, event| {
            let mut watch = Watch { terminating, last_sent: 25000, last_clock: 25000, ..started(16, 0) };
            let told = watch.tell(25000, event);
            (told, watch.terminating)
        };
        use Terminating::{LossAlarm, Norm, RemoteAlarm};
        assert_eq!(told(Norm, Taken { na: 0 }), (QUIET, Norm));
        assert_eq!(told(Norm, Taken { na: 1 }), (and(Begins, QUIET), RemoteAlarm));
        assert_eq!(told(Norm, Passing), (and(Begins, QUIET), LossAlarm));
        for alarm in [LossAlarm, RemoteAlarm] {
            assert_eq!(told(alarm, Taken { na: 0 }), (and(Ends, QUIET), Norm));
            assert_eq!(told(alarm, Taken { na: 1 }), (QUIET, RemoteAlarm));
            assert_eq!(told(alarm, Passing), (QUIET, LossAlarm));
        }
    }

    #[test]
    fn na_alone_sends_nothing() {
        let mut watch = started(16, 0);
        assert_eq!(watch.tell(1, alarm(0)), QUIET);
        assert_eq!(watch.tell(2, reading(0)), QUIET);
        assert_eq!(watch.last_sent, 0);
    }

    #[test]
    fn none_sends_and_watches_nothing() {
        let fresh = started(0, 5);
        let mut watch = fresh;
        let events = [Passing, reading(15), alarm(7), Taken { na: 1 }, Taken { na: 0 }];
        for (clock, event) in (30_005..).step_by(30_000).zip(events) {
            assert_eq!(watch.tell(clock, event), QUIET);
            assert_eq!(watch, Watch { last_clock: clock, ..fresh });
        }
    }

    #[test]
    fn limits_of_the_clock() {
        assert_eq!(Watch::start(2, 1000, 1500, CLOCK_MAX + 1), Err(Clock));
        assert_eq!(Watch::start(3, 1000, 1500, CLOCK_MAX + 1), Err(NotOffered));
        let mut watch = Watch::start(2, 1000, 1500, CLOCK_MAX).unwrap();
        assert_eq!(watch.tell(CLOCK_MAX, reading(8)), transition(8, false));
        assert_eq!(watch.tell(CLOCK_MAX + 1, Passing), Err(Clock));
        assert_eq!(watch.tell(CLOCK_MAX - 1, Passing), Err(Clock));
        assert_eq!(watch.tell(CLOCK_MAX, Passing), QUIET);
    }

    #[test]
    fn refusals_in_their_order() {
        let sound = Watch { last_clock: 100, ..started(4, 50) };
        let not_offered = [
            Watch { states: 3, ..sound },
            Watch { states: 8, ..sound },
            Watch { refresh: 9999, ..sound },
            Watch { refresh: 20000, ..sound },
            Watch { keepalive: 25001, ..sound },
            Watch { keepalive: 20000, ..sound },
        ];
        let bad_clocks = [
            Watch { last_sent: 101, ..sound },
            Watch { last_taken: 101, ..sound },
            Watch { last_sent: u64::MAX, ..sound },
            Watch { last_clock: CLOCK_MAX + 1, ..sound },
            Watch { last_clock: 49, ..sound },
        ];
        let bad_bits = Watch { bits: 16, ..sound };
        let refused = |watch: Watch, clock, event| {
            let mut after = watch;
            let refusal = after.tell(clock, event).unwrap_err();
            assert_eq!(after, watch);
            refusal
        };
        // Each is tried with all that stands behind it in the order.
        for watch in not_offered {
            assert_eq!(refused(watch, 100, Passing), NotOffered);
            assert_eq!(refused(Watch { last_sent: 101, bits: 16, ..watch }, 99, reading(16)), NotOffered);
        }
        for watch in bad_clocks {
            assert_eq!(refused(watch, 100, Passing), Record);
            assert_eq!(refused(Watch { bits: 16, ..watch }, 0, Taken { na: 2 }), Record);
        }
        assert_eq!(refused(sound, 99, Passing), Clock);
        assert_eq!(refused(bad_bits, CLOCK_MAX + 1, reading(16)), Clock);
        assert_eq!(refused(bad_bits, 100, Passing), FourBits);
        assert_eq!(refused(sound, 100, reading(16)), FourBits);
        assert_eq!(refused(sound, 100, alarm(255)), FourBits);
        assert_eq!(refused(sound, 100, Taken { na: 2 }), FourBits);
        // A circuit with none is judged like any other.
        assert_eq!(refused(Watch { states: 0, ..sound }, 100, Taken { na: 2 }), FourBits);
    }
}
