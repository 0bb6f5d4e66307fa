//! Counts checks, and shows what failed.

#[derive(Default)]
pub struct Tally {
    pub passed: usize,
    pub failed: usize,
}

impl Tally {
    pub fn equal<T: PartialEq + std::fmt::Debug>(&mut self, name: &str, found: T, wanted: T) {
        if found == wanted {
            self.passed += 1;
            return;
        }
        self.failed += 1;
        println!("FAILED: {name}\n  wanted {wanted:?}\n  found  {found:?}");
    }

    /// Every test's last line.
    pub fn close(&self) -> i32 {
        println!("{} passed, {} failed", self.passed, self.failed);
        (self.failed > 0) as i32
    }
}
