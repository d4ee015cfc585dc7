//! How large a formula is, by the table's counts. For the questions, so sizes may be any.

/// The table's counts, where every agent has a goal. Without rule 1 or 2 there is no
/// family G.
pub(crate) fn clause_counts(n: u128, k: u128, e: u128, m: u128, rule: u64) -> [u128; 7] {
    let agents = k * k.saturating_sub(1);
    [
        k,
        k,
        (m + 1) * k,
        (m + 1) * k * n * n.saturating_sub(1) / 2,
        (m + 1) * n * k * k.saturating_sub(1) / 2,
        m * k * n,
        match rule {
            1 => m * agents * n,
            2 => m * e * agents,
            _ => 0,
        },
    ]
}

pub(crate) fn word_count(n: u128, k: u128, edges: u128, m: u128, rule: u64) -> u128 {
    let [_, _, _, d, e, _, g] = clause_counts(n, k, edges, m, rule);
    let g_words = if rule == 2 { 5 } else { 3 };
    4 * k + (m + 1) * k * (n + 1) + 3 * (d + e) + m * k * (3 * n + 2 * edges) + g_words * g
}
