//! A small seeded generator of numbers (splitmix64), alike on every machine.

pub struct Random {
    state: u64,
}

const GAMMA: u64 = 0x9e37_79b9_7f4a_7c15;

fn mix(mut z: u64) -> u64 {
    z = (z ^ (z >> 30)).wrapping_mul(0xbf58_476d_1ce4_e5b9);
    z = (z ^ (z >> 27)).wrapping_mul(0x94d0_49bb_1331_11eb);
    z ^ (z >> 31)
}

impl Random {
    /// The numbers of one case, which depend on seed and case number alone.
    pub fn of_case(seed: u64, case: u64) -> Random {
        Random { state: mix(mix(seed.wrapping_add(GAMMA)) ^ case.wrapping_mul(GAMMA)) }
    }

    pub fn draw(&mut self) -> u64 {
        self.state = self.state.wrapping_add(GAMMA);
        mix(self.state)
    }

    /// A number from 0 to `bound` less 1. The slight lean of the multiplication
    /// does not matter here.
    pub fn below(&mut self, bound: usize) -> usize {
        assert!(bound > 0, "nothing is below 0");
        ((u128::from(self.draw()) * bound as u128) >> 64) as usize
    }

    /// A number from `least` to `most`, both among them.
    pub fn between(&mut self, least: u32, most: u32) -> u32 {
        assert!(least <= most, "nothing is between {least} and {most}");
        let wide = u64::from(most - least) + 1;
        least + ((u128::from(self.draw()) * u128::from(wide)) >> 64) as u32
    }

    /// True `times` times in `of`.
    pub fn chance(&mut self, times: usize, of: usize) -> bool {
        self.below(of) < times
    }

    pub fn pick<T: Copy>(&mut self, among: &[T]) -> T {
        among[self.below(among.len())]
    }

    /// An index, each as likely as its share.
    pub fn weighted(&mut self, shares: &[usize]) -> usize {
        let mut at = self.below(shares.iter().sum());
        for (index, &share) in shares.iter().enumerate() {
            if at < share {
                return index;
            }
            at -= share;
        }
        unreachable!("the shares were summed")
    }
}

#[cfg(test)]
mod tests {
    use super::Random;

    /// A case must be made again alike anywhere, so the numbers are pinned.
    #[test]
    fn numbers_are_pinned() {
        let mut random = Random::of_case(0, 0);
        let numbers: Vec<u64> = (0..3).map(|_| random.draw()).collect();
        let due = [6235967106033911276, 4964577235801436555, 5009519748041543987];
        assert_eq!(numbers, due);
        assert_ne!(numbers[0], Random::of_case(0, 1).draw());
        assert_ne!(numbers[0], Random::of_case(1, 0).draw());
    }

    #[test]
    fn bounds_are_kept() {
        let mut random = Random::of_case(7, 0);
        for _ in 0..1_000 {
            assert!(random.below(3) < 3);
            assert!((2..=4).contains(&random.between(2, 4)));
            assert_eq!(random.weighted(&[0, 5, 0]), 1);
        }
        assert_eq!(random.between(u32::MAX, u32::MAX), u32::MAX);
    }
}
