// Calls of traits that are not named, of which scripts/test/rust_tests.sh makes more: rustc has to name the traits.
pub fn frame(it: &linkwire::NlaBuffer<&[u8]>) {
    let _ = linkwire::DefaultNla::parse(it);
    let _ = linkwire::LinkAttribute::parse_with_param(it, linkwire::AddressFamily::Unspec);
}
