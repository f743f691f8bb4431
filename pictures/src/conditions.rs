//! On which assignments a step is taken, in few words.

/// A set of assignments: those whose bits under `care` are those of `value`.
#[derive(Clone, Copy, Debug, PartialEq, Eq)]
struct Cube {
    care: usize,
    value: usize,
}

impl Cube {
    fn holds(&self, assignment: usize) -> bool {
        assignment & self.care == self.value
    }

    fn members(&self, assignments: usize) -> Vec<usize> {
        (0..assignments).filter(|&a| self.holds(a)).collect()
    }
}

/// The condition under which a step is taken, in at most `longest` characters if
/// that can be: `always`, an expression over the inputs, a list of assignments,
/// or how many assignments there are.
pub fn condition(inputs: &[usize], taken: &[bool], longest: usize) -> String {
    if taken.iter().all(|&level| level) {
        return "always".to_string();
    }
    let expression = expression(inputs, taken);
    if expression.len() <= longest {
        return expression;
    }
    let on: Vec<usize> = (0..taken.len()).filter(|&a| taken[a]).collect();
    let list: Vec<String> = on.iter().map(|&a| digits(inputs.len(), a)).collect();
    let list = format!("on {}", list.join(" "));
    if list.len() <= longest {
        return list;
    }
    format!("{} of {}", on.len(), taken.len())
}

/// The levels of the inputs in their listed order, as digits.
pub fn digits(inputs: usize, assignment: usize) -> String {
    (0..inputs).map(|j| if assignment >> j & 1 == 1 { '1' } else { '0' }).collect()
}

/// Terms joined by `or`, each some inputs joined by `and`.
fn expression(inputs: &[usize], taken: &[bool]) -> String {
    let terms: Vec<String> = cover(taken).iter().map(|cube| term(inputs, cube)).collect();
    terms.join(" or ")
}

fn term(inputs: &[usize], cube: &Cube) -> String {
    let mut literals = Vec::new();
    for (j, signal) in inputs.iter().enumerate() {
        if cube.care >> j & 1 == 1 {
            let not = if cube.value >> j & 1 == 1 { "" } else { "not " };
            literals.push(format!("{not}s{signal}"));
        }
    }
    literals.join(" and ")
}

/// Cubes that together hold exactly the taken assignments, few and large.
fn cover(taken: &[bool]) -> Vec<Cube> {
    let assignments = taken.len();
    let mut inside: Vec<Cube> = Vec::new();
    for care in 0..assignments {
        for value in (0..assignments).filter(|value| value & !care == 0) {
            let cube = Cube { care, value };
            if cube.members(assignments).iter().all(|&a| taken[a]) {
                inside.push(cube);
            }
        }
    }
    // Larger cubes first, so that ties go to fewer inputs.
    inside.sort_by_key(|cube| cube.care.count_ones());
    let mut open = taken.to_vec();
    let mut chosen = Vec::new();
    while open.contains(&true) {
        let gain = |cube: &Cube| cube.members(assignments).iter().filter(|&&a| open[a]).count();
        let most = inside.iter().map(gain).max().unwrap_or(0);
        let best = *inside.iter().find(|cube| gain(cube) == most).expect("an open assignment");
        for a in best.members(assignments) {
            open[a] = false;
        }
        chosen.push(best);
    }
    chosen
}

#[cfg(test)]
mod tests {
    use super::*;

    #[test]
    fn covers_hold_exactly_the_taken_assignments() {
        for inputs in 0..=4_usize {
            let assignments = 1_usize << inputs;
            let step = if inputs == 4 { 7 } else { 1 };
            for word in (0..1_u64 << assignments).step_by(step) {
                let taken: Vec<bool> = (0..assignments).map(|a| word >> a & 1 == 1).collect();
                let cubes = cover(&taken);
                for (a, &level) in taken.iter().enumerate() {
                    assert_eq!(cubes.iter().any(|cube| cube.holds(a)), level);
                }
            }
        }
    }

    #[test]
    fn conditions_in_words() {
        let text = |inputs: &[usize], taken: &[bool]| condition(inputs, taken, 24);
        assert_eq!(text(&[], &[true]), "always");
        assert_eq!(text(&[3], &[true, true]), "always");
        assert_eq!(text(&[3], &[false, true]), "s3");
        assert_eq!(text(&[3], &[true, false]), "not s3");
        assert_eq!(text(&[3, 5], &[false, false, true, false]), "not s3 and s5");
        assert_eq!(text(&[3, 5], &[false, true, true, true]), "s3 or s5");
        assert_eq!(text(&[3, 5], &[false, true, true, false]), "on 10 01");
        assert_eq!(condition(&[3, 5], &[false, false, true, false], 12), "on 01");
        let parity: Vec<bool> = (0..16_u32).map(|a| a.count_ones() % 2 == 1).collect();
        assert_eq!(text(&[0, 1, 2, 3], &parity), "8 of 16");
    }
}
