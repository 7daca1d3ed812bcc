//! Times: ticks of 0.1 s, and seconds with at most one digit behind the point.

/// Why a text is no time.
#[derive(Clone, Copy, PartialEq, Eq, Debug)]
pub enum NoTime {
    /// It is no number.
    Odd,
    /// It is finer than a tick.
    Fine,
    /// It passes 65,535 ticks.
    Long,
}

/// Whether a text is digits alone, one or more.
pub fn digits(text: &str) -> bool {
    !text.is_empty() && text.bytes().all(|digit| digit.is_ascii_digit())
}

/// The ticks of a text such as `20`.
pub fn ticks(text: &str) -> Result<u16, NoTime> {
    if !digits(text) {
        return Err(NoTime::Odd);
    }
    text.parse().map_err(|_| NoTime::Long)
}

/// The ticks of a text of seconds, such as `2.0` or `2`.
pub fn ticks_of_seconds(text: &str) -> Result<u16, NoTime> {
    let (whole, tenth) = text.split_once('.').unwrap_or((text, "0"));
    if !digits(whole) || !digits(tenth) {
        return Err(NoTime::Odd);
    }
    if tenth.len() > 1 {
        return Err(NoTime::Fine);
    }
    ticks(&format!("{whole}{tenth}"))
}

/// Ticks in seconds, such as `2.0`.
pub fn seconds(ticks: u64) -> String {
    format!("{}.{}", ticks / 10, ticks % 10)
}
