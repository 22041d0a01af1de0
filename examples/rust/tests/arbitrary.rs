use arbitrary::{Arbitrary, Error, Unstructured};
use lupinanon::{generate, validate, Answer, Component, Limits};

// An input of which a component is made, and a byte.
const PLAN: &[u8] = b"\x03\x01\x00\x00\x06\x00\x00\xff";
const TYPE_OF_U32: &[u8] = b"\x00asm\x0d\x00\x01\x00\x07\x02\x01\x79";

#[test]
fn a_component_is_made_within_the_limits_of_the_profile() {
    let limits = Limits { must_validate: true, ..Limits::fuzz() };
    for start in 0..64u32 {
        let input: Vec<u8> = (start..start + 4096).map(|place| (place * place % 251) as u8).collect();
        let made = generate(&limits, &input).unwrap();
        let mut u = Unstructured::new(&input);
        let component = Component::arbitrary(&mut u).unwrap();
        assert_eq!((component.as_bytes(), u.len()), (&made.bytes[..], made.left));
        assert_eq!(component.to_bytes(), made.bytes);
        assert_eq!(validate(component.as_bytes()), Ok(Answer::Valid));
    }
}

#[test]
fn what_is_left_is_for_others() {
    let mut u = Unstructured::new(PLAN);
    let component = Component::new(&Limits::default(), &mut u).unwrap();
    assert_eq!(component.as_bytes(), TYPE_OF_U32);
    assert_eq!(u.bytes(1).unwrap(), b"\xff");
    assert!(u.is_empty());
}

#[test]
fn a_component_may_take_the_rest() {
    for input in [&b""[..], PLAN, &[7; 1000]] {
        let component = Component::arbitrary(&mut Unstructured::new(input)).unwrap();
        let last = Component::arbitrary_take_rest(Unstructured::new(input)).unwrap();
        assert_eq!(component, last);
    }
}

#[test]
fn any_length_makes_a_component() {
    assert_eq!(Component::size_hint(0), (0, None));
    let component = Component::arbitrary(&mut Unstructured::new(b"")).unwrap();
    assert_eq!(component.as_bytes(), b"\x00asm\x0d\x00\x01\x00");
}

#[test]
fn a_refusal_takes_nothing() {
    let crossed = Limits { min_types: 5, max_types: 4, ..Limits::default() };
    let mut u = Unstructured::new(PLAN);
    assert!(matches!(Component::new(&crossed, &mut u), Err(Error::IncorrectFormat)));
    assert_eq!(u.len(), PLAN.len());
}

#[test]
fn a_finding_is_shown_as_text() {
    let component = Component::new(&Limits::default(), &mut Unstructured::new(PLAN)).unwrap();
    assert_eq!(format!("{component:?}"), "(component\n  (type (;0;) u32)\n)\n");
}
