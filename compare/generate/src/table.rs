//! What was met, and how often.

/// Items of coverage that belong together.
struct Group {
    name: String,
    labels: Vec<String>,
    counts: Vec<u64>,
}

/// The table of coverage.
#[derive(Default)]
pub struct Table {
    groups: Vec<Group>,
}

impl Table {
    /// Adds a group, every item of which must be met at least once.
    pub fn group<T: ToString>(&mut self, name: &str, labels: impl IntoIterator<Item = T>) -> usize {
        let labels: Vec<String> = labels.into_iter().map(|label| label.to_string()).collect();
        let counts = vec![0; labels.len()];
        self.groups.push(Group { name: name.to_string(), labels, counts });
        self.groups.len() - 1
    }

    pub fn met(&mut self, group: usize, item: usize) {
        self.groups[group].counts[item] += 1;
    }

    pub fn met_if(&mut self, group: usize, item: usize, met: bool) {
        self.groups[group].counts[item] += u64::from(met);
    }

    /// The item of a label, added when it is new.
    pub fn item(&mut self, group: usize, label: &str) -> usize {
        let group = &mut self.groups[group];
        group.labels.iter().position(|known| known == label).unwrap_or_else(|| {
            group.labels.push(label.to_string());
            group.counts.push(0);
            group.labels.len() - 1
        })
    }

    /// How many items were met at least once.
    pub fn items_met(&self) -> usize {
        self.groups.iter().flat_map(|group| &group.counts).filter(|count| **count > 0).count()
    }

    /// Prints every item with its count, then the unmet ones; gives how many.
    pub fn print(&self) -> usize {
        let mut items = 0;
        let mut unmet = Vec::new();
        for group in self.groups.iter().filter(|group| !group.labels.is_empty()) {
            println!("{}", group.name);
            let mut line = String::from(" ");
            for (label, count) in group.labels.iter().zip(&group.counts) {
                let item = format!(" {label}: {count};");
                if line.len() + item.len() > 100 {
                    println!("{line}");
                    line = String::from(" ");
                }
                line += &item;
                items += 1;
                if *count == 0 {
                    unmet.push(format!("{}, {label}", group.name));
                }
            }
            println!("{line}");
        }
        for item in &unmet {
            println!("UNMET: {item}");
        }
        println!("coverage: {items} items, {} unmet", unmet.len());
        unmet.len()
    }
}
