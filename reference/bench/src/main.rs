//! Times of the proved code beside the fast baseline, both in one run: the check, the list, the sheet, the run on a
//! budget, one step and one start.

mod check;
mod designs;
mod list;
mod measure;
mod ratios;
mod run;
mod sheet;
mod step;

fn main() {
    let mut ratios = ratios::Ratios::default();
    check::section(&mut ratios);
    println!();
    list::section(&mut ratios);
    println!();
    sheet::section(&mut ratios);
    println!();
    run::section(&mut ratios);
    println!();
    step::section(&mut ratios);
    println!();
    ratios.print();
}
