//! What the calls of a round carry on: the history of an encoder, and those of the two ends of a line.

use ofec_tests::chain::sending::List;
use ofec_tests::pair_calls::any_encoder;
use ofec_tests::random::Random;

pub struct Round {
    pub random: Random,
    pub encoder: List,
    pub sender: List,
    pub receiver: List,
}

impl Round {
    pub fn new(mut random: Random) -> Self {
        let [encoder, end] = [0; 2].map(|_| any_encoder(&mut random));
        Round {
            random,
            encoder: List::fresh(encoder),
            sender: List::fresh(end),
            receiver: List::fresh(end),
        }
    }
}
