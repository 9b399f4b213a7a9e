//! How many roots there were, and which of them were refused: what a run has to have met.

use model::MOST_ROOTS;

/// How often calls with roots, or house files, came to this.
pub struct Roots {
    /// Numbers of roots that have to be refused.
    wrong: [usize; 3],
    /// The farthest place that a root can name.
    farthest: u64,
    /// Accepted, or refused with 43 by the call that takes one root alone, by the number of roots,
    /// from 1.
    accepted: [u64; MOST_ROOTS],
    /// Refused with 46, by the number of roots among the wrong ones.
    refused: [u64; 3],
    /// Refused with 6 for one root alone, by its position: it is n, and it is the farthest place.
    outside: [[u64; 2]; MOST_ROOTS],
}

impl Roots {
    /// Nothing met of these numbers of roots, and of roots up to this place.
    pub fn new(wrong: [usize; 3], farthest: u64) -> Self {
        let (accepted, outside) = ([0; MOST_ROOTS], [[0; 2]; MOST_ROOTS]);
        Self { wrong, farthest, accepted, refused: [0; 3], outside }
    }

    /// Counts what a list of n records with these roots came to: a refusal's number, or 0.
    pub fn count(&mut self, number: u64, roots: &[u64], n: u64) {
        match number {
            0 | 43 => self.accepted[roots.len() - 1] += 1,
            46 => {
                if let Some(which) = self.wrong.iter().position(|&wrong| wrong == roots.len()) {
                    self.refused[which] += 1;
                }
            }
            6 => self.count_outside(roots, n),
            _ => {}
        }
    }

    /// Counts the root outside the list, where there is one alone.
    fn count_outside(&mut self, roots: &[u64], n: u64) {
        let outside: Vec<usize> = (0..roots.len()).filter(|&root| roots[root] >= n).collect();
        if let [root] = outside[..] {
            let places = [n, self.farthest];
            if let Some(which) = places.iter().position(|&place| place == roots[root]) {
                self.outside[root][which] += 1;
            }
        }
    }

    /// What was met, and how often; of a root outside, how often at the position where it was
    /// least.
    pub fn met(&self) -> Vec<(String, u64)> {
        let accepted = (1..).zip(self.accepted).map(|(roots, times)| match roots {
            1 => ("1 root".to_string(), times),
            _ => (format!("{roots} roots"), times),
        });
        let refused = self.wrong.iter().zip(self.refused);
        let refused = refused.map(|(roots, times)| (format!("46 for {roots} roots"), times));
        let least = |which: usize| self.outside.iter().map(|times| times[which]).min().unwrap_or(0);
        let farthest = format!("6 for {} at each position", self.farthest);
        let outside = [("6 for n at each position".to_string(), least(0)), (farthest, least(1))];
        accepted.chain(refused).chain(outside).collect()
    }
}

#[cfg(test)]
mod tests {
    use super::*;

    /// What was met, less what is lacking.
    fn lacking(roots: &Roots) -> Vec<String> {
        roots.met().into_iter().filter(|(_, times)| *times == 0).map(|(what, _)| what).collect()
    }

    #[test]
    fn each_number_and_each_position_is_wanted() {
        let mut roots = Roots::new([0, 9, 257], u64::MAX);
        let all = lacking(&roots);
        assert_eq!(all.len(), 13);
        for number in 1..=8 {
            roots.count(0, &vec![0; number], 1);
        }
        for wrong in [0, 9, 257, 258] {
            roots.count(46, &vec![0; wrong], 1);
        }
        assert_eq!(lacking(&roots), all[11..]);
        for position in 0..8 {
            for outside in [1, u64::MAX] {
                let mut one = vec![0; position + 1];
                one[position] = outside;
                // Another root outside, a root elsewhere outside, another refusal: none of these.
                roots.count(6, &[&one[..], &[2]].concat(), 1);
                roots.count(6, &[&one[..position], &[2]].concat(), 1);
                roots.count(5, &one, 1);
                assert_eq!(lacking(&roots).len(), if position == 7 && outside > 1 { 1 } else { 2 });
                roots.count(6, &one, 1);
            }
        }
        assert!(lacking(&roots).is_empty());
    }
}
