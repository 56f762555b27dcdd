// A row of the table with which bench/run ends: what was timed, how many times the other's speed ours is, by the best round and by
// the one in the middle, and what was wanted. 0 stands for none.
pub fn row(what: &str, best: f64, median: f64, wanted: f64) {
    let cell = |x: f64, digits| if x == 0.0 { String::new() } else { format!("{x:.digits$}") };
    println!("| {what} | {} | {} | {} |", cell(best, 2), cell(median, 2), cell(wanted, 1));
}
