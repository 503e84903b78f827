//! The standby that reads a line as a `serde_json::Value`.

fn main() {
    plain::run(plain::value::read)
}
