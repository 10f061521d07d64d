//! Prints the library's source file with the stored ceilings.
fn main() {
    print!("{}", reference::stored::source());
}
