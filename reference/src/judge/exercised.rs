//! What the clauses had to speak of in a text that holds, so that a test can tell a
//! clause that holds from one that was never asked.

/// Counts of rows, and at last of sets' lines.
#[derive(Clone, Copy, Debug, Default, PartialEq, Eq)]
pub struct Exercised {
    pub rows: u64,
    /// Rows with load unserved; with sets on line; where the battery gave besides.
    pub unserved: u64,
    pub unserved_on_line: u64,
    pub unserved_given: u64,
    pub shed: u64,
    pub charge: u64,
    pub spill: u64,
    pub give: u64,
    /// Rows after which the store is at its least, at its most.
    pub at_least: u64,
    pub at_most: u64,
    /// Rows in which a configuration serves; none does; one that serves is not usable
    /// for a due set or a service alone.
    pub serving: u64,
    pub none_serving: u64,
    pub kept_from_serving: u64,
    /// Rows in which a set is in Service, is due, is warming, is cooling.
    pub service: u64,
    pub due: u64,
    pub warming: u64,
    pub cooling: u64,
    /// Rows with a load and no set on line.
    pub dark: u64,
    /// Rows whose held setpoint is not what was wanted.
    pub filtered: u64,
    /// Seconds run of a set whose curve dips below zero; whose exact rate is no whole number.
    pub cut: u64,
    pub fractional: u64,
    /// Sets' lines; those with starts, with stops, and with fuel below the exact sum.
    pub set_lines: u64,
    pub started: u64,
    pub stopped: u64,
    pub below_exact: u64,
}

impl Exercised {
    /// Each count with its name.
    pub fn named(&self) -> [(&'static str, u64); 25] {
        [
            ("rows", self.rows),
            ("unserved", self.unserved),
            ("unserved-on-line", self.unserved_on_line),
            ("unserved-given", self.unserved_given),
            ("shed", self.shed),
            ("charge", self.charge),
            ("spill", self.spill),
            ("give", self.give),
            ("at-least", self.at_least),
            ("at-most", self.at_most),
            ("serving", self.serving),
            ("none-serving", self.none_serving),
            ("kept-from-serving", self.kept_from_serving),
            ("service", self.service),
            ("due", self.due),
            ("warming", self.warming),
            ("cooling", self.cooling),
            ("dark", self.dark),
            ("filtered", self.filtered),
            ("cut", self.cut),
            ("fractional", self.fractional),
            ("set-lines", self.set_lines),
            ("started", self.started),
            ("stopped", self.stopped),
            ("below-exact", self.below_exact),
        ]
    }
}
