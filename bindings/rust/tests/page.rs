//! What the page README.md shows stands in the source that the tests build.

#[test]
fn the_program_on_the_page_is_the_example_and_has_forty_lines() {
    let (page, program) = (include_str!("../README.md"), include_str!("../examples/lines.rs"));
    assert!(page.contains(&format!("```rust\n{program}```")));
    assert_eq!(program.lines().count(), 40);
}
