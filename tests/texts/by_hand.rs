//! Document 01's example of a text, and the sums that it has checked by hand and that a text can put.

pub const EXAMPLE: &str = "(sheet 1 1)
(feasibility 0)
(var i 0 3FF0000000000000 0 0 (nonbasic 3FF0000000000000))
(slack 0 0 0 0 (basic 0 4000000000000000))
(row 4008000000000000 3FF0000000000000 (0 3FF0000000000000) (1 3FF0000000000000))
(multipliers unchecked)
(rho 3FF0000000000000 0)
(leave 0 down)
";

const ANSWER: &str = "(holds yes)
(gap 4000000000000000)
(allowance 39F8000000000000)
(cut 3CB0000000000324)
(zero-within-error 0)
(multipliers-zeroed 0)
(rows 1)
(outward 4000000000000000)
(declined yes)
";

/// The example with one thing changed.
fn with(from: &str, to: &str) -> String {
    assert!(EXAMPLE.contains(from));
    EXAMPLE.replacen(from, to, 1)
}

/// So many rows, each of its slack alone.
fn of_rows(rows: usize) -> String {
    let slack = |r| format!("(slack 0 0 0 0 (basic {r} 0))\n");
    let row = |r| format!("(row 0 0 ({r} 3FF0000000000000))\n");
    let slacks: String = (0..rows).map(slack).collect();
    let lines: String = (0..rows).map(row).collect();
    let multipliers = "(rho 0 0)\n".repeat(rows);
    format!("(sheet {rows} 0)\n(feasibility 0)\n{slacks}{lines}(multipliers unchecked)\n{multipliers}(leave 0 up)\n")
}

/// Texts, and what 01 says of the answer: a part of its lines.
pub fn texts() -> Vec<(String, &'static str)> {
    let bounds = "i 0 3FF0000000000000";
    let right_side = with("(row 4008000000000000", "(row 3FF0000000000000");
    let infinite = with(bounds, "r 0 7FF0000000000000");
    vec![
        (EXAMPLE.to_string(), ANSWER),
        (right_side.clone(), "(holds no)\n(gap 0000000000000000)\n"),
        (right_side, "(outward 0000000000000000)\n(declined no)\n"),
        (infinite.clone(), "(gap FFF0000000000000)\n(allowance 39E8000000000000)\n(cut 0000000000000000)\n"),
        (infinite, "(outward FFF0000000000000)\n(declined no)\n"),
        (with(bounds, "i 3FF0000000000000 3FF0000000000000"), "(rows 1)\n"),
        (with(bounds, "i 3FF0000000000001 3FF0000000000000"), "(refused 7)\n"),
        (of_rows(128), "(rows 0)\n"),
        (of_rows(129), "(refused 2)\n"),
        (of_rows(0), "(refused 2)\n"),
    ]
}
