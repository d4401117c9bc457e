//! Shorter scripts that still fail.

/// Drops lines while the rest still fails, larger pieces first.
pub fn shrink(mut script: Vec<String>, fails: impl Fn(&[String]) -> bool) -> Vec<String> {
    let mut piece = script.len().div_ceil(2).max(1);
    loop {
        let before = script.len();
        script = drop_pieces(script, piece, &fails);
        if piece == 1 && script.len() == before {
            return script;
        }
        piece = piece.div_ceil(2).min(script.len().max(1));
    }
}

/// Drops each piece of that many lines without which the script still fails.
fn drop_pieces(
    mut script: Vec<String>,
    piece: usize,
    fails: &impl Fn(&[String]) -> bool,
) -> Vec<String> {
    let mut at = 0;
    while at < script.len() {
        let end = (at + piece).min(script.len());
        let rest = [&script[..at], &script[end..]].concat();
        if fails(&rest) {
            script = rest;
        } else {
            at = end;
        }
    }
    script
}

#[cfg(test)]
mod tests {
    use super::*;

    #[test]
    fn only_what_is_needed_to_fail_stays() {
        let script: Vec<String> = (0..100).map(|n| n.to_string()).collect();
        let fails = |part: &[String]| {
            let has = |n: &str| part.iter().any(|line| line == n);
            has("7") && has("64") && has("65")
        };
        assert_eq!(shrink(script, fails), ["7", "64", "65"]);
    }
}
