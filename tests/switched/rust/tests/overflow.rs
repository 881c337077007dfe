#[test]
fn past_the_end() {
    std::hint::black_box(switched::byte_of_copy("past", 4));
}
