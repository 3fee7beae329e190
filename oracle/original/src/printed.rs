//! What the original prints: kept for the tick instead of printed, since some answers show only there.

use std::cell::RefCell;

thread_local! {
    static LINES: RefCell<Vec<&'static str>> = const { RefCell::new(Vec::new()) };
}

/// Stands before std's in the original's modules. A line is kept as its format text.
macro_rules! println {
    ($text:literal $(, $argument:expr)* $(,)?) => {{
        let _ = format_args!($text $(, $argument)*);
        $crate::printed::keep($text)
    }};
}

pub fn keep(text: &'static str) {
    LINES.with_borrow_mut(|lines| lines.push(text));
}

/// The lines since the last `take`.
pub fn take() -> Vec<&'static str> {
    LINES.take()
}
