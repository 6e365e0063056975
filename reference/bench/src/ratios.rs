//! All ratios of a run, with the bounds they are meant to keep.

struct Ratio {
    label: String,
    ratio: f64,
    bound: f64,
}

#[derive(Default)]
pub struct Ratios {
    all: Vec<Ratio>,
}

impl Ratios {
    pub fn add(&mut self, label: &str, ratio: f64, bound: f64) {
        self.all.push(Ratio { label: label.to_string(), ratio, bound });
    }

    /// Prints them all and marks those above their bound.
    pub fn print(&self) {
        println!("all ratios, time of the proved code over the other's, and their bounds");
        print!("{}", self.rows());
    }

    fn rows(&self) -> String {
        let mut text = format!("{:>LABEL$}  {:>6}  {:>6}\n", "", "ratio", "bound");
        let mut above = 0;
        for Ratio { label, ratio, bound } in &self.all {
            // What is printed decides, so that no row contradicts itself.
            let is_above = (ratio * 100.0).round() > (bound * 100.0).round();
            above += usize::from(is_above);
            let mark = if is_above { "  above" } else { "" };
            text += &format!("{label:>LABEL$}  {ratio:>6.2}  {bound:>6.2}{mark}\n");
        }
        text + &match above {
            0 => "all within their bounds\n".to_string(),
            _ => format!("{above} of {} above their bounds\n", self.all.len()),
        }
    }
}

const LABEL: usize = 36;

#[test]
fn marks_what_is_above() {
    let mut ratios = Ratios::default();
    ratios.add("one", 1.5, 1.5);
    assert!(ratios.rows().ends_with("  1.50    1.50\nall within their bounds\n"));
    ratios.add("two", 1.51, 1.5);
    ratios.add("three", 1.504, 1.5);
    let wanted = ["1.51    1.50  above", "1.50    1.50", "1 of 3 above their bounds"];
    let rows = ratios.rows();
    let found: Vec<&str> = rows.lines().skip(2).collect();
    assert!(found.len() == 3 && found.iter().zip(wanted).all(|(row, end)| row.ends_with(end)), "{rows}");
}
