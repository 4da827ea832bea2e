//! Prints document 01's worked updates of the map and its worked datagrams, as the proved code computes them.
fn main() {
    print!("{}", judges::worked::text());
}
