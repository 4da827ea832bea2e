//! What examples/worked.rs prints is the kept text, in which a reader can find the documents' examples.
use judges::worked::text;

#[test]
fn the_documents_examples() {
    let (found, want) = (text(), include_str!("worked.txt"));
    for (number, (found, want)) in found.lines().zip(want.lines()).enumerate() {
        assert_eq!(found, want, "line {} of tests/worked.txt", number + 1);
    }
    assert_eq!(found, want, "the lengths of the texts");
}
