//! Crate kripke, sets: up to 4,096 states, bit s % 64 of word s / 64 for state s.

pub type Set = [u64; 64];

pub fn insert(set: &mut Set, s: usize) {
    set[s / 64] |= 1 << (s % 64);
}

pub fn remove(set: &mut Set, s: usize) {
    set[s / 64] &= !(1 << (s % 64));
}

/// All states below n.
pub fn below(n: usize) -> Set {
    let mut set = [0; 64];
    set[..n / 64].fill(u64::MAX);
    if !n.is_multiple_of(64) {
        set[n / 64] = (1 << (n % 64)) - 1;
    }
    set
}

pub fn union(x: &Set, y: &Set) -> Set {
    std::array::from_fn(|j| x[j] | y[j])
}

pub fn difference(x: &Set, y: &Set) -> Set {
    std::array::from_fn(|j| x[j] & !y[j])
}

pub fn complement(n: usize, x: &Set) -> Set {
    difference(&below(n), x)
}

/// The lowest member of `a` that is not one of `b`, from word `from` on.
fn pick_from(width: usize, a: &Set, b: &Set, from: usize) -> Option<usize> {
    for (j, (&a, &b)) in a[..width].iter().zip(&b[..width]).enumerate().skip(from) {
        let rest = a & !b;
        if rest != 0 {
            return Some(j * 64 + rest.trailing_zeros() as usize);
        }
    }
    None
}

/// A member of `a` that is not one of `b`, sought from word `from` on and then from the first on.
pub fn pick(width: usize, a: &Set, b: &Set, from: usize) -> Option<usize> {
    pick_from(width, a, b, from).or_else(|| pick_from(width, a, b, 0))
}
