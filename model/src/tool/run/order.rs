//! Which thread goes next.

use crate::draw::Draw;

pub enum Order {
    /// The runner's: round by number, from here on.
    Runner(u64),
    Random(u64, Draw),
    /// A list over and over, and the place in it.
    List(Vec<u64>, usize),
}

impl Order {
    pub fn random(seed: u64) -> Order {
        Order::Random(seed, Draw::new(seed))
    }

    /// `0,1,2`, with at least one number.
    pub fn list(text: &str) -> Option<Order> {
        let numbers = text.split(',').map(|word| word.trim().parse().ok());
        let numbers: Option<Vec<u64>> = numbers.collect();
        Some(Order::List(numbers?, 0))
    }

    /// The threads that may have the next turn, of those that are not done where the order does not
    /// say: one, or in the runner's order each, one after the other until one goes.
    pub fn next(&mut self, open: &[u64]) -> Vec<u64> {
        match self {
            Order::Runner(from) => {
                let (before, after): (Vec<u64>, Vec<u64>) =
                    open.iter().partition(|thread| **thread < *from);
                [after, before].concat()
            }
            Order::Random(_, draw) if !open.is_empty() => vec![draw.pick(open)],
            Order::Random(..) => Vec::new(),
            Order::List(list, at) => {
                let chosen = list[*at];
                *at = (*at + 1) % list.len();
                vec![chosen]
            }
        }
    }

    /// Whether a thread that cannot go is passed over, without a turn.
    pub fn passes_over(&self) -> bool {
        matches!(self, Order::Runner(_))
    }

    /// A rule has moved that thread.
    pub fn note(&mut self, moved: u64) {
        if let Order::Runner(from) = self {
            *from = moved + 1;
        }
    }

    /// The threads that this order ever chooses, given those that are not done.
    pub fn chosen<'o>(&'o self, open: &'o [u64]) -> &'o [u64] {
        match self {
            Order::List(list, _) => list,
            _ => open,
        }
    }

    pub fn in_words(&self) -> String {
        match self {
            Order::Runner(_) => "in the runner's order".to_owned(),
            Order::Random(seed, _) => format!("random threads, seed {seed}"),
            Order::List(list, _) => {
                let list: Vec<String> = list.iter().map(u64::to_string).collect();
                format!("the order {} over and over", list.join(","))
            }
        }
    }
}
