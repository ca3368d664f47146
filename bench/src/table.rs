//! The rows that are printed: what was measured, the same of what stands beside it, and the ratio.

#[derive(Default)]
pub struct Table {
    rows: Vec<[String; 4]>,
}

impl Table {
    pub fn row(&mut self, what: &str, this: String, beside: String, ratio: f64) {
        self.rows.push([what.into(), this, beside, format!("{ratio:.2}")]);
    }

    /// A row whose other side can't be had here, which says so.
    pub fn missing(&mut self, what: &str, this: String, why: &str) {
        self.rows.push([what.into(), this, why.into(), "-".into()]);
    }

    pub fn print(&self) {
        let head = ["what", "this", "beside it", "ratio"].map(String::from);
        let line = |cells: &[String; 4]| println!("| {} |", cells.join(" | "));
        line(&head);
        line(&["---", "---", "---", "---:"].map(String::from));
        self.rows.iter().for_each(line);
    }
}

/// A whole number with its thousands set apart.
pub fn grouped(n: u64) -> String {
    let digits = n.to_string();
    let mut text = String::new();
    for (i, digit) in digits.chars().enumerate() {
        if i > 0 && (digits.len() - i) % 3 == 0 {
            text.push(',');
        }
        text.push(digit);
    }
    text
}

/// Nanoseconds, or microseconds from 1,000 on.
pub fn time(seconds: f64) -> String {
    let nanoseconds = seconds * 1e9;
    if nanoseconds < 1_000.0 {
        format!("{nanoseconds:.1} ns")
    } else {
        format!("{:.1} us", nanoseconds / 1e3)
    }
}
