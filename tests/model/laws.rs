//! Laws looked at over many things, and the counts of what was asked.

/// A law: of one thing, whether it held, each time that it was asked.
pub type Law<T> = fn(&T) -> Vec<bool>;

/// The words of how often each law was asked and how often it failed.
pub fn counted_over<T>(laws: &[(&str, Law<T>)], things: impl Iterator<Item = T>) -> String {
    let mut counts = vec![(0, 0); laws.len()];
    for thing in things {
        for ((asked, failed), (_, law)) in counts.iter_mut().zip(laws) {
            let held = law(&thing);
            *asked += held.len();
            *failed += held.iter().filter(|holds| !**holds).count();
        }
    }
    let words = |((name, _), (asked, failed)): (&(&str, Law<T>), (usize, usize))| {
        format!("law {} asked {} times, failed {}", name, asked, failed)
    };
    laws.iter().zip(counts).map(words).collect::<Vec<String>>().join("; ")
}

/// Print them.
pub fn print_over<T>(laws: &[(&str, Law<T>)], things: impl Iterator<Item = T>) {
    println!("{}", counted_over(laws, things));
}
