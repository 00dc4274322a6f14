//! A small seeded generator (splitmix64), so that a day can be made again from its seed.

pub struct Rng {
    state: u64,
}

impl Rng {
    pub fn new(seed: u64) -> Rng {
        Rng { state: seed }
    }

    pub fn draw(&mut self) -> u64 {
        self.state = self.state.wrapping_add(0x9e3779b97f4a7c15);
        let mut z = self.state;
        z = (z ^ (z >> 30)).wrapping_mul(0xbf58476d1ce4e5b9);
        z = (z ^ (z >> 27)).wrapping_mul(0x94d049bb133111eb);
        z ^ (z >> 31)
    }

    /// A number under `end`, which is at least 1.
    pub fn under(&mut self, end: usize) -> usize {
        (self.draw() % end as u64) as usize
    }

    /// A number from `least` to `most`, both included.
    pub fn between(&mut self, least: usize, most: usize) -> usize {
        least + self.under(most - least + 1)
    }

    /// True in `parts` of a hundred cases.
    pub fn percent(&mut self, parts: usize) -> bool {
        self.under(100) < parts
    }

    pub fn byte(&mut self) -> u8 {
        self.draw() as u8
    }

    pub fn bytes(&mut self, count: usize) -> Vec<u8> {
        (0..count).map(|_| self.byte()).collect()
    }

    pub fn pick<T: Clone>(&mut self, choices: &[T]) -> T {
        choices[self.under(choices.len())].clone()
    }

    /// One of the choices, each as likely as its weight says.
    pub fn weigh<T: Clone>(&mut self, choices: &[(usize, T)]) -> T {
        let total = choices.iter().map(|choice| choice.0).sum();
        let mut left = self.under(total);
        for (weight, choice) in choices {
            if left < *weight {
                return choice.clone();
            }
            left -= weight;
        }
        unreachable!("the weights sum to the total")
    }
}
