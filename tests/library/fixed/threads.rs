//! "Calls on different memory may run at the same time": no call has any state of its own.

use crate::random::Random;
use crate::tally::Tally;
use crate::trials;
use std::thread;

pub fn threads(tally: &mut Tally, random: &mut Random) {
    let seed = random.next();
    let workers: Vec<_> = (0..4)
        .map(|k| {
            thread::spawn(move || {
                let mut own = Tally::default();
                for round in 0..3 {
                    trials::round(&mut own, seed ^ (16 * k + round));
                }
                own
            })
        })
        .collect();
    for worker in workers {
        match worker.join() {
            Ok(own) => tally.join(own),
            Err(_) => tally.check(false, || "a thread fell".to_string()),
        }
    }
}
