//! Counts the refused arrivals that would show a record left wrong: 17 and 20 store the frame's more
//! bit and noise, every other refusal leaves the record whole. Its counts are in `counts.rs`.

use crate::table::{crossed, Table};
use crate::tally::{label, Call};
use pelgrant_host::document;

const WAYS: [&str; 4] = ["17, stamp above B", "17, past end", "20, in turn", "20, out of turn"];

/// A refusal that still stores the frame's more bit and noise.
pub fn stores(number: usize) -> bool {
    matches!(number, 17 | 20)
}

pub struct Arrivals {
    storing: Table,
    leaving: Table,
    /// The columns of `leaving`: all that stands before 17 and 20 in the order.
    others: Vec<usize>,
}

impl Arrivals {
    pub fn new() -> Arrivals {
        let calls = [Call::Arrive, Call::ArriveValue].map(Call::name);
        let others: Vec<usize> = Call::Arrive.order().iter().copied().filter(|number| !stores(*number)).collect();
        Arrivals {
            storing: Table::new(
                crossed(&[&calls, &WAYS]),
                crossed(&[&["0 to 0", "0 to 1", "1 to 0", "1 to 1"], &["same", "new"]]),
                |_, _| true,
            ),
            leaving: Table::new(
                crossed(&[&calls, &["more bit 0", "more bit 1"]]),
                others.iter().map(|number| label(*number)).collect(),
                |_, _| true,
            ),
            others,
        }
    }

    /// Counts an arrival by its outcome, where the record has six numbers or more and the frame reaches
    /// octet 8, so that there is a more bit and a noise.
    pub fn met(&mut self, call: Call, outcome: usize, record: &[u64], frame: &[u8]) {
        let (Some(record), Some(head)) = (record.first_chunk::<6>(), frame.first_chunk::<8>()) else { return };
        let [build_out, rseq, _, _, m_last, last_noise] = *record;
        let [stamp, more, sequence, noise] = [head[5], head[6] >> 7, head[7] >> 4, head[7] & 15].map(u64::from);
        let call = usize::from(call == Call::ArriveValue);
        let new_noise = noise != last_noise;
        if stores(outcome) {
            let in_turn = sequence != 0 && sequence == rseq;
            let way = if outcome == 17 { usize::from(stamp <= build_out) } else { 2 + usize::from(!in_turn) };
            self.storing.count(WAYS.len() * call + way, (4 * m_last + 2 * more) as usize + usize::from(new_noise));
            return;
        }
        let column = self.others.iter().position(|number| *number == outcome);
        // Where its record, clock or slices are refused, the frame must be one that can be read.
        let telling = document::read(frame).map_or_else(|refusal| refusal as usize == outcome, |_| true);
        if let Some(column) = column.filter(|_| telling && new_noise && more != m_last) {
            self.leaving.count(2 * call + more as usize, column);
        }
    }

    pub fn tables(&self) -> [(&'static str, &Table); 2] {
        [
            ("Refused arrivals that store, by M_LAST before and after and by the noise", &self.storing),
            ("Refused arrivals that leave the record, whose more bit and noise are not the frame's", &self.leaving),
        ]
    }
}
