//! The standby that reads a line straight into the fields of its formats.

fn main() {
    plain::run(plain::typed::read)
}
