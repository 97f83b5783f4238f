//! Links the proved library.
mod archive;

fn main() {
    archive::link("../..");
}
