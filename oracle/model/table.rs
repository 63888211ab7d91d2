//! How often each kind of answer came out, a row for each kind.

/// A group of rows, and the rows.
pub type Group = (&'static str, &'static [&'static str]);

/// A group's name and a row's.
pub type Row = (&'static str, &'static str);

/// A group's name, and its rows with how often each came out.
type Counts = (&'static str, Vec<(&'static str, u64)>);

pub struct Table {
    /// What was compared.
    pub what: &'static str,
    pub total: u64,
    groups: Vec<Counts>,
}

impl Table {
    pub fn new(what: &'static str, groups: &[Group]) -> Self {
        let empty = |rows: &[&'static str]| rows.iter().map(|&row| (row, 0)).collect();
        let groups = groups.iter().map(|&(group, rows)| (group, empty(rows))).collect();
        Table { what, total: 0, groups }
    }

    /// Counts a case by its rows; a row that the table does not have is passed over.
    pub fn count(&mut self, rows: &[Row]) {
        self.total += 1;
        for (group, row) in rows {
            let found = self.groups.iter_mut().find(|(name, _)| name == group);
            let rows = found.into_iter().flat_map(|(_, rows)| rows);
            rows.filter(|(name, _)| name == row).for_each(|(_, count)| *count += 1);
        }
    }

    /// The rows that never came out.
    pub fn missing(&self) -> Vec<Row> {
        let of_group = |(group, rows): &Counts| {
            let never = rows.iter().filter(|(_, count)| *count == 0);
            never.map(|&(row, _)| (*group, row)).collect::<Vec<Row>>()
        };
        self.groups.iter().flat_map(of_group).collect()
    }

    /// One line for each group.
    pub fn told(&self) -> Vec<String> {
        let line = |(group, rows): &Counts| {
            let row: Vec<String> =
                rows.iter().map(|(row, count)| format!("{row}: {count}")).collect();
            format!("{} by {group}: {}", self.what, row.join(", "))
        };
        self.groups.iter().map(line).collect()
    }
}
