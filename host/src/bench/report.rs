//! What a run of measurements found: tables in Markdown and plots, printed and kept in a folder.

use super::plot::{svg, Series};
use std::fs;
use std::io;
use std::path::PathBuf;

pub struct Report {
    folder: PathBuf,
    text: String,
    pub targets: Vec<Target>,
}

/// Something that is to hold of the library, and what was measured, as it is shown.
pub struct Target {
    pub wanted: &'static str,
    /// None where the library doesn't export the call.
    pub measured: Option<(String, bool)>,
}

impl Report {
    pub fn new(folder: PathBuf) -> io::Result<Report> {
        fs::create_dir_all(&folder)?;
        Ok(Report { folder, text: String::new(), targets: vec![] })
    }

    pub fn say(&mut self, line: &str) {
        println!("{line}");
        self.text += line;
        self.text.push('\n');
    }

    /// A heading and the head of a table.
    pub fn table(&mut self, title: &str, columns: &[&str]) {
        self.say(&format!("\n## {title}\n"));
        self.say(&format!("| {} |", columns.join(" | ")));
        self.say(&format!("|{}", "---|".repeat(columns.len())));
    }

    pub fn row(&mut self, cells: &[String]) {
        self.say(&format!("| {} |", cells.join(" | ")));
    }

    pub fn plot(&mut self, file: &str, title: &str, x_label: &str, series: &[Series]) -> io::Result<()> {
        let drawn: Vec<Series> = series
            .iter()
            .filter(|one| !one.points.is_empty())
            .map(|one| Series { name: one.name.clone(), points: one.points.clone() })
            .collect();
        fs::write(self.folder.join(file), svg(title, x_label, &drawn))
    }

    /// Keeps a target for the table at the end.
    pub fn target(&mut self, wanted: &'static str, measured: Option<(String, bool)>) {
        self.targets.push(Target { wanted, measured });
    }

    /// Shows the targets and keeps the text.
    pub fn finish(mut self) -> io::Result<()> {
        self.table("Targets", &["wanted", "measured", "met"]);
        for Target { wanted, measured } in std::mem::take(&mut self.targets) {
            let (shown, met) =
                measured.map_or(("-".to_string(), "-"), |(shown, met)| (shown, if met { "yes" } else { "no" }));
            self.row(&[wanted.to_string(), shown, met.to_string()]);
        }
        fs::write(self.folder.join("table.md"), self.text)
    }
}

/// The machine, named only by cores and memory.
pub fn machine() -> String {
    let cores = std::thread::available_parallelism().map_or(1, usize::from);
    let memory = fs::read_to_string("/proc/meminfo").unwrap_or_default();
    let kib: u64 = memory.split_whitespace().nth(1).and_then(|word| word.parse().ok()).unwrap_or(0);
    format!("{cores} cores, {} GiB of memory", (kib + 524_288) / 1_048_576)
}
