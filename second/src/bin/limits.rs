//! `limits`: prints the page of limits, LIMITS.md.

fn main() {
    print!("{}", second::limits::page());
}
