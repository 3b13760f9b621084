//! Draw: the chance that a random preflight quorum fails, in thousandths.

/// C(upper, lower), "0 if the lower number exceeds the upper".
pub fn choose(upper: u64, lower: u64) -> u64 {
    if lower > upper {
        return 0;
    }
    // After i rounds the product is C(upper, i): every division is exact.
    let mut product = 1;
    for i in 1..=lower {
        product = product * (upper - lower + i) / i;
    }
    product
}

/// 1 − C(n−u, n−b) / C(n, n−b) in thousandths, "an exact half to the even neighbour"; u ≤ n.
pub fn thousandths(n: u64, b: u64, u: u64) -> u64 {
    let quorum = n - b;
    let all = choose(n, quorum);
    let failing = all - choose(n - u, quorum);
    // The nearer neighbour, and of two equally near ones the even one.
    let down = 1000 * failing / all;
    let distance = |thousandths: u64| (1000 * failing).abs_diff(thousandths * all);
    [down, down + 1]
        .into_iter()
        .min_by_key(|near| (distance(*near), near % 2))
        .expect("two neighbours")
}
