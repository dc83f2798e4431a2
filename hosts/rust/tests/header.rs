//! The C header has the same refusals, by number and by words.
use kitesettee::Refusal;

const HEADER: &str = include_str!("../../c/kitesettee.h");

#[test]
fn numbers_and_words() {
    for refusal in Refusal::ALL {
        let line = format!("    case {}: return \"{}\";\n", refusal.number(), refusal.words());
        assert!(HEADER.contains(&line), "kitesettee.h lacks {line}");
        assert_eq!(Refusal::from_number(refusal.number()), Some(refusal));
    }
    assert_eq!(HEADER.matches("    case ").count(), Refusal::ALL.len() + 1);
    assert_eq!(Refusal::from_number(0), None);
    assert_eq!(Refusal::from_number(22), None);
    let numbers = HEADER.lines().filter(|l| l.starts_with("    KITE_")).count();
    assert_eq!(numbers, Refusal::ALL.len() + 1);
    for (name, refusal) in [
        ("PRICE", Refusal::Price),
        ("STRIKE", Refusal::Strike),
        ("NO_CONVERGENCE", Refusal::NoConvergence),
        ("EXPIRY_READ", Refusal::ExpiryRead),
    ] {
        assert!(HEADER.contains(&format!("    KITE_{name} = {}", refusal.number())));
    }
}
