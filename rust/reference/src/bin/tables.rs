//! Prints what the program `tables` has to print.
fn main() {
    print!("{}", reference::tables::printed());
}
