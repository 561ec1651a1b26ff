//! A queue in which what comes later overtakes what came before.

use cases::random::Random;
use std::collections::VecDeque;

/// So often each is overtaken at most.
const OVERTAKEN: usize = 7;

/// What is on its way, in the order in which it was sent, and how often each was overtaken.
pub struct Queue<T>(VecDeque<(T, usize)>);

impl<T> Default for Queue<T> {
    /// A queue with nothing on its way.
    fn default() -> Self {
        Self(VecDeque::new())
    }
}

impl<T> Queue<T> {
    /// One more is on its way.
    pub fn send(&mut self, thing: T) {
        self.0.push_back((thing, 0));
    }

    /// One of the first eight arrives, before those that were sent earlier.
    pub fn arrive(&mut self, random: &mut Random) -> Option<T> {
        let last = OVERTAKEN.min(self.0.len().checked_sub(1)?);
        let waits_no_longer = |(_, times): &(T, usize)| *times == OVERTAKEN;
        let reach = self.0.iter().position(waits_no_longer);
        let place = random.within(0..=reach.unwrap_or(last).min(last));
        for (_, times) in self.0.iter_mut().take(place) {
            *times += 1;
        }
        self.0.remove(place).map(|(thing, _)| thing)
    }
}

#[cfg(test)]
mod tests {
    use super::*;

    /// What arrives of these, sent at once.
    fn arrived(seed: u64, count: usize) -> Vec<usize> {
        let mut random = Random::new(seed);
        let mut queue = Queue::default();
        (0..count).for_each(|number| queue.send(number));
        std::iter::from_fn(|| queue.arrive(&mut random)).collect()
    }

    #[test]
    fn all_arrive_and_none_is_overtaken_more_than_seven_times() {
        let mut most = 0;
        for seed in 0..100 {
            let order = arrived(seed, 100);
            let mut sorted = order.clone();
            sorted.sort();
            assert_eq!(sorted, (0..100).collect::<Vec<_>>());
            for (place, number) in order.iter().enumerate() {
                let before = order[..place].iter().filter(|other| *other > number);
                most = most.max(before.count());
            }
        }
        assert_eq!(most, OVERTAKEN);
    }

    #[test]
    fn nothing_arrives_where_nothing_was_sent() {
        assert_eq!(arrived(0, 0), []);
        assert_eq!(arrived(0, 1), [0]);
    }
}
