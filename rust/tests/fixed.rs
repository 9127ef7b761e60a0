//! The fixed answers, which the original Rust agrees with where it answers: places, buffers and workspaces included.
mod protocol;

#[test]
fn fixed_answers() {
    let folder = concat!(env!("CARGO_MANIFEST_DIR"), "/../crates/replay/");
    let read = |name: &str| std::fs::read_to_string(format!("{folder}{name}")).unwrap();
    let (questions, answers) = (read("stdin"), read("stdout"));
    assert_eq!(questions.lines().count(), answers.lines().count());
    let mut asked = 0;
    for (question, expected) in questions.lines().zip(answers.lines()) {
        // `eval` and `listing` are no questions of the library
        if let Some(answer) = protocol::answer(question) {
            assert_eq!(answer, expected, "{question}");
            asked += 1;
        }
    }
    assert!(asked > 19000, "{asked} asked");
}
