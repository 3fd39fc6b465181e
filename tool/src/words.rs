//! Numbers and verdicts as people read them.

use vmx::Verdict;

/// 1234567 as 1,234,567
pub fn grouped(n: usize) -> String {
    let digits = n.to_string();
    let mut out = String::new();
    for (i, c) in digits.chars().enumerate() {
        if i > 0 && (digits.len() - i) % 3 == 0 {
            out.push(',');
        }
        out.push(c);
    }
    out
}

/// "1 slice", "2 slices"
pub fn count(n: usize, what: &str) -> String {
    format!("{} {what}{}", grouped(n), if n == 1 { "" } else { "s" })
}

/// A verdict in words.
pub fn verdict(verdict: Verdict) -> String {
    match verdict {
        Ok(()) => "accepted".into(),
        Err(refused) => format!("refused: {refused}"),
    }
}

/// A time in words: frame numbers count from 1, and 0 is what was there at first.
pub fn shown(time: u64) -> String {
    match time.checked_sub(1) {
        Some(frame) => format!("shows frame {frame}"),
        None => "shows black, as nothing came before".into(),
    }
}

#[cfg(test)]
mod tests {
    use super::*;

    #[test]
    fn groups_of_three() {
        assert_eq!([0, 999, 1000, 1234567].map(grouped), ["0", "999", "1,000", "1,234,567"]);
        assert_eq!((count(1, "slice"), count(2, "slice")), ("1 slice".into(), "2 slices".into()));
    }

    #[test]
    fn a_refusal_has_its_number() {
        assert_eq!(verdict(Err(vmx::Refused::Code)), "refused: a bad code in the stream (8)");
    }
}
