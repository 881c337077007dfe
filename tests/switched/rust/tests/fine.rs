#[test]
fn within() {
    assert_eq!(switched::byte_of_copy("within", 5), b'n');
}
