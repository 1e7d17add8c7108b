//! The order of a call's refusals: its rules by name, what stands on both sides of each, and which are neighbours.
//! Cases say what they show of it, so that a run can tell what is missing.

/// A rule: the number that its breach gives, and the values at its edge with the numbers that come out.
#[derive(Clone, Debug, PartialEq, Eq)]
pub struct Row {
    pub number: u32,
    pub name: &'static str,
    pub last: Vec<(String, u32)>,
    pub first: Vec<(String, u32)>,
    pub shuts: Option<Shuts>,
}

/// Why rules of the next number cannot be broken together with one: all of them, or only the named one.
#[derive(Clone, Copy, Debug, PartialEq, Eq)]
pub struct Shuts {
    pub reason: &'static str,
    pub only: Option<&'static str>,
}

impl Shuts {
    pub fn out(self, later: &str) -> bool {
        self.only.is_none_or(|name| name == later)
    }
}

/// The rules of one call; the title tells kinds of inputs apart that have rules of their own.
#[derive(Clone, Debug, PartialEq, Eq)]
pub struct Order {
    pub byte: u8,
    pub title: &'static str,
    pub rows: Vec<Row>,
}

/// What a case shows of an order.
#[derive(Clone, Debug, PartialEq, Eq, PartialOrd, Ord)]
pub enum Shows {
    Side { title: &'static str, rule: &'static str, value: String },
    Pair { title: &'static str, earlier: &'static str, later: &'static str },
}

impl Shows {
    pub fn side(title: &'static str, rule: &'static str, value: &str) -> Shows {
        Shows::Side { title, rule, value: value.to_string() }
    }

    pub fn pair(title: &'static str, earlier: &'static str, later: &'static str) -> Shows {
        Shows::Pair { title, earlier, later }
    }
}

impl std::fmt::Display for Shows {
    fn fmt(&self, text: &mut std::fmt::Formatter<'_>) -> std::fmt::Result {
        match self {
            Shows::Side { title, rule, value } => write!(text, "{title}: {rule}: {value}"),
            Shows::Pair { title, earlier, later } => {
                write!(text, "{title}: together not so: {earlier}; {later}")
            }
        }
    }
}

impl Order {
    /// Each rule with every rule of the number that is asked next. Rules of one number in a row have no order.
    pub fn neighbours(&self) -> Vec<(usize, usize)> {
        let mut pairs = Vec::new();
        for (k, row) in self.rows.iter().enumerate() {
            let later = &self.rows[k + 1..];
            let Some(skipped) = later.iter().position(|other| other.number != row.number) else { continue };
            let next = &later[skipped..];
            let many = next.iter().take_while(|other| other.number == next[0].number).count();
            pairs.extend((0..many).map(|j| (k, k + 1 + skipped + j)));
        }
        pairs
    }

    /// Every side that cases must show.
    pub fn sides(&self) -> Vec<Shows> {
        let of_row = |row: &Row| -> Vec<Shows> {
            let values = row.last.iter().chain(&row.first);
            values.map(|(value, _)| Shows::side(self.title, row.name, value)).collect()
        };
        self.rows.iter().flat_map(of_row).collect()
    }

    /// Every pair that cases must show.
    pub fn pairs(&self) -> Vec<Shows> {
        let can_be = |pair: &(usize, usize)| self.reason(*pair).is_none();
        self.neighbours().into_iter().filter(can_be).map(|pair| self.pair(pair)).collect()
    }

    /// The pairs that cannot be: the earlier rule's name, the later one's, and why.
    pub fn impossible(&self) -> Vec<(&'static str, &'static str, &'static str)> {
        let named =
            |(k, j): (usize, usize)| Some((self.rows[k].name, self.rows[j].name, self.reason((k, j))?));
        self.neighbours().into_iter().filter_map(named).collect()
    }

    /// Why a pair of neighbours cannot be.
    fn reason(&self, (k, j): (usize, usize)) -> Option<&'static str> {
        self.rows[k].shuts.filter(|shuts| shuts.out(self.rows[j].name)).map(|shuts| shuts.reason)
    }

    fn pair(&self, (k, j): (usize, usize)) -> Shows {
        Shows::pair(self.title, self.rows[k].name, self.rows[j].name)
    }
}
