//! The least, the middle and the greatest of many numbers, with memory for few.

/// So many numbers are kept at most; where there are more, every second one, every fourth and so on.
const MOST: usize = 1 << 16;

pub struct Spread {
    kept: Vec<u64>,
    /// One of so many is kept.
    step: u64,
    count: u64,
    ends: Option<(u64, u64)>,
}

impl Default for Spread {
    fn default() -> Self {
        Spread {
            kept: Vec::new(),
            step: 1,
            count: 0,
            ends: None,
        }
    }
}

/// What is known of numbers of which there is one or more.
#[derive(Clone, Copy, Debug, PartialEq, Eq)]
pub struct Ends {
    pub least: u64,
    /// Half of the numbers are no greater, and half no less; of very many, of those that were kept.
    pub middle: u64,
    pub greatest: u64,
}

impl Spread {
    pub fn add(&mut self, number: u64) {
        let (least, greatest) = self.ends.unwrap_or((number, number));
        self.ends = Some((least.min(number), greatest.max(number)));
        if self.count % self.step == 0 {
            self.keep(number);
        }
        self.count += 1;
    }

    fn keep(&mut self, number: u64) {
        if self.kept.len() == MOST {
            let mut place = 0;
            self.kept.retain(|_| {
                place += 1;
                place % 2 == 1
            });
            self.step *= 2;
        }
        self.kept.push(number);
    }

    pub fn ends(&self) -> Option<Ends> {
        let (least, greatest) = self.ends?;
        let mut kept = self.kept.clone();
        let at = (kept.len() - 1) / 2;
        let (_, middle, _) = kept.select_nth_unstable(at);
        Some(Ends {
            least,
            middle: *middle,
            greatest,
        })
    }
}

#[cfg(test)]
mod tests {
    use super::*;

    fn of(numbers: impl IntoIterator<Item = u64>) -> Option<Ends> {
        let mut spread = Spread::default();
        numbers.into_iter().for_each(|it| spread.add(it));
        spread.ends()
    }

    #[test]
    fn few() {
        assert_eq!(of([]), None);
        let ends = |least, middle, greatest| {
            Some(Ends {
                least,
                middle,
                greatest,
            })
        };
        assert_eq!(of([7]), ends(7, 7, 7));
        assert_eq!(of([9, 1, 5]), ends(1, 5, 9));
        assert_eq!(of([4, 3, 2, 1]), ends(1, 2, 4));
    }

    /// A million numbers, of which 65,536 are kept: the middle is near, the ends are exact.
    #[test]
    fn many() {
        let ends = of((0..1_000_000).map(|it| it * 7919 % 1_000_000)).expect("some");
        assert_eq!((ends.least, ends.greatest), (0, 999_999));
        assert!(ends.middle.abs_diff(500_000) < 20_000, "{ends:?}");
    }
}
