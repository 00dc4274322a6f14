//! The receive window (WTLS 9.2.3.1), kept as its meaning: every number ever accepted, the highest
//! of them, and the width, a number fixed when the connection is made.

use std::collections::BTreeSet;

/// The widths that there may be.
const WIDTHS: std::ops::RangeInclusive<u32> = 32..=64;

#[derive(Clone, PartialEq, Eq, Debug)]
pub struct Window {
    width: u16,
    accepted: BTreeSet<u16>,
    highest: Option<u16>,
}

#[derive(Clone, Copy, PartialEq, Eq, Debug)]
pub enum Verdict {
    New,
    TooOld,
    Repeated,
}

impl Window {
    /// A window in which any number is new; none of a width outside 32 to 64.
    pub fn fresh(width: u32) -> Option<Window> {
        if !WIDTHS.contains(&width) {
            return None;
        }
        Some(Window { width: width as u16, accepted: BTreeSet::new(), highest: None })
    }

    /// The window of the same width in which any number is new.
    pub fn emptied(&self) -> Window {
        Window { width: self.width, accepted: BTreeSet::new(), highest: None }
    }

    /// A number at most n less the width is too old, even if it was accepted; one accepted before is
    /// repeated; every other is new.
    pub fn verdict(&self, number: u16) -> Verdict {
        match self.highest {
            Some(n) if u32::from(number) + u32::from(self.width) <= u32::from(n) => Verdict::TooOld,
            _ if self.accepted.contains(&number) => Verdict::Repeated,
            _ => Verdict::New,
        }
    }

    pub fn accept(&mut self, number: u16) {
        self.accepted.insert(number);
        self.highest = self.highest.max(Some(number));
    }

    pub fn width(&self) -> u16 {
        self.width
    }

    pub fn highest(&self) -> Option<u16> {
        self.highest
    }

    /// Which of the newest numbers have arrived: n, n - 1 and so on, as many as the width says.
    pub fn newest(&self) -> Vec<bool> {
        (0..self.width).map(|back| self.has_arrived(back)).collect()
    }

    fn has_arrived(&self, back: u16) -> bool {
        match self.highest.and_then(|n| n.checked_sub(back)) {
            Some(number) => self.accepted.contains(&number),
            None => false,
        }
    }
}

#[cfg(test)]
mod tests {
    use super::*;

    fn window(numbers: &[u16]) -> Window {
        wide(32, numbers)
    }

    fn wide(width: u32, numbers: &[u16]) -> Window {
        let mut window = Window::fresh(width).unwrap();
        for number in numbers {
            window.accept(*number);
        }
        window
    }

    /// Cases E to G.
    #[test]
    fn too_old() {
        assert_eq!(window(&[31]).verdict(0), Verdict::New);
        assert_eq!(window(&[32]).verdict(0), Verdict::TooOld);
        assert_eq!(window(&[40]).verdict(9), Verdict::New);
        assert_eq!(window(&[40]).verdict(8), Verdict::TooOld);
    }

    #[test]
    fn fresh_takes_any() {
        assert_eq!(window(&[]).verdict(0), Verdict::New);
        assert_eq!(window(&[]).verdict(65535), Verdict::New);
        assert_eq!(window(&[]).newest(), vec![false; 32]);
        assert_eq!(wide(45, &[]).newest(), vec![false; 45]);
    }

    #[test]
    fn widths() {
        for width in [0, 1, 31, 65, 66, 255, 256, 288, 999_999_999] {
            assert_eq!(Window::fresh(width), None, "{width}");
        }
        for width in 32..=64 {
            let window = wide(width, &[200, 200 - (width as u16 - 1)]);
            assert_eq!(window.verdict(200 - width as u16), Verdict::TooOld, "{width}");
            assert_eq!(window.verdict(201 - width as u16), Verdict::Repeated, "{width}");
            assert_eq!(window.verdict(202 - width as u16), Verdict::New, "{width}");
            assert_eq!(window.newest().iter().filter(|&&mark| mark).count(), 2, "{width}");
            assert_eq!(window.emptied(), wide(width, &[]));
        }
    }

    #[test]
    fn left_behind_is_too_old_not_repeated() {
        let window = window(&[5, 36, 37]);
        assert_eq!(window.verdict(5), Verdict::TooOld);
        assert_eq!(window.verdict(6), Verdict::New);
        assert_eq!(window.verdict(36), Verdict::Repeated);
        assert_eq!(window.newest().iter().filter(|&&mark| mark).count(), 2);
    }

    #[test]
    fn a_late_number_keeps_the_highest() {
        let window = window(&[65535, 65504]);
        assert_eq!(window.highest(), Some(65535));
        assert!(window.newest()[31]);
        assert_eq!(window.verdict(65503), Verdict::TooOld);
    }
}
