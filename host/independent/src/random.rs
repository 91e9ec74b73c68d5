//! A small seeded generator, so that every made input can be made again.

/// A splitmix64 generator: the same seed gives the same numbers everywhere.
#[derive(Clone, Debug)]
pub struct Random {
    state: u64,
}

impl Random {
    /// Starts a generator from a seed; every seed will do.
    pub fn new(seed: u64) -> Random {
        Random { state: seed }
    }

    /// Draws the next 64 bits.
    #[allow(
        clippy::should_implement_trait,
        reason = "an endless source of bits is no iterator here"
    )]
    pub fn next(&mut self) -> u64 {
        self.state = self.state.wrapping_add(0x9e37_79b9_7f4a_7c15);
        let mut bits = self.state;
        bits = (bits ^ (bits >> 30)).wrapping_mul(0xbf58_476d_1ce4_e5b9);
        bits = (bits ^ (bits >> 27)).wrapping_mul(0x94d0_49bb_1331_11eb);
        bits ^ (bits >> 31)
    }

    /// Draws a number from 0 to `bound` - 1, and 0 if `bound` is 0.
    pub fn below(&mut self, bound: u64) -> u64 {
        ((u128::from(self.next()) * u128::from(bound)) >> 64) as u64
    }

    /// Says yes once in `one_in` draws on average.
    pub fn chance(&mut self, one_in: u64) -> bool {
        self.below(one_in) == 0
    }

    /// Draws one of the things in a list, which must not be empty.
    pub fn pick<'a, T>(&mut self, list: &'a [T]) -> &'a T {
        &list[self.below(list.len() as u64) as usize]
    }
}

#[cfg(test)]
mod tests {
    use super::*;

    /// The generator must give the published splitmix64 numbers.
    #[test]
    fn known_numbers() {
        let mut random = Random::new(1_234_567);
        let drawn: Vec<u64> = (0..5).map(|_| random.next()).collect();
        assert_eq!(
            drawn,
            [
                6_457_827_717_110_365_317,
                3_203_168_211_198_807_973,
                9_817_491_932_198_370_423,
                4_593_380_528_125_082_431,
                16_408_922_859_458_223_821,
            ]
        );
    }

    /// Small draws must stay under their bound and reach every number below it.
    #[test]
    fn draws_keep_their_bounds() {
        let mut random = Random::new(1);
        let mut met = [0_u32; 7];
        let mut yes = 0;
        for _ in 0..7_000 {
            met[random.below(7) as usize] += 1;
            yes += u32::from(random.chance(7));
            assert!([3, 5].contains(random.pick(&[3, 5])));
        }
        assert!(met.iter().all(|&count| (800..1200).contains(&count)));
        assert!((800..1200).contains(&yes));
        assert_eq!(random.below(0), 0);
        assert_eq!(random.below(1), 0);
        assert!(random.chance(1));
    }
}
