use lupinanon::{
    change_count, changed, check, check_in, features, generate, generate_in, join, library_version, next_changed,
    next_miswritten, next_smaller, print, reduce, script, script_in, smaller, swarm_limits, validate, validate_in,
    without, Answer, Limits, NoScript, NoText, OutOfMemory, Refusal, Unreduced, Verdict,
};

#[test]
fn a_component_of_one_type() {
    let made = generate(&Limits::default(), b"\x03\x01\x00\x00\x06\x00\x00\xff").unwrap();
    assert_eq!(made.bytes, b"\x00asm\x0d\x00\x01\x00\x07\x02\x01\x79");
    assert_eq!(made.left, 1);
}

#[test]
fn memory_may_be_lent() {
    let limits = Limits::default();
    let component = b"\x00asm\x0d\x00\x01\x00\x07\x02\x01\x79";
    let plan = b"\x03\x01\x00\x00\x06\x00\x00\xff";
    let mut scratch = vec![0; 1 << 16];
    let made = generate_in(&limits, plan, &mut scratch).unwrap();
    assert_eq!((&made.bytes[..], made.left), (&component[..], 1));
    assert_eq!(check_in(component, &mut scratch), Ok(Verdict::WellFormed));
    assert_eq!(validate_in(component, &mut scratch), Ok(Answer::Valid));
    assert_eq!(script_in(&limits, component, &mut scratch).unwrap(), plan[..7]);
    assert_eq!(generate_in(&limits, plan, &mut scratch[..64]), Err(Refusal::OutOfMemory));
    assert_eq!(check_in(component, &mut []), Err(OutOfMemory));
    assert_eq!(validate_in(component, &mut scratch[..64]), Err(OutOfMemory));
    assert_eq!(script_in(&limits, component, &mut scratch[..64]), Err(NoScript::OutOfMemory));
}

#[test]
fn limits_that_cross_are_refused() {
    let limits = Limits { min_types: 5, max_types: 4, ..Limits::default() };
    assert_eq!(generate(&limits, b""), Err(Refusal::InconsistentLimits));
}

#[test]
fn limits_arrive() {
    let limits = Limits { max_type_size: 0, ..Limits::default() };
    let made = generate(&limits, b"\x03\x01\x00\x00\x06").unwrap();
    assert_eq!(made.bytes, b"\x00asm\x0d\x00\x01\x00\x07\x02\x01\x7f");
    assert!(Limits::default().bulk_memory_enabled);
}

#[test]
fn a_profile_sets_four_limits() {
    let set = Limits {
        max_exports: 10,
        finish_after: 8,
        max_name_length: 8,
        loop_bits: 2,
        ..Limits::default()
    };
    assert_eq!(Limits::fuzz(), set);
    // A loop goes on after 02, and ends after 04.
    let limits = Limits { finish_after: 0, ..Limits::fuzz() };
    let made = generate(&limits, b"\x03\x02\x00\x00\x06\x04\x00").unwrap();
    assert_eq!(made.bytes, b"\x00asm\x0d\x00\x01\x00\x07\x02\x01\x79");
}

#[test]
fn limits_are_said_by_the_first_bytes() {
    let given = Limits { min_types: 1, must_validate: true, loop_bits: 2, ..Limits::default() };
    let front = [2, 0, 0, 255, 0, 0, 0, 17, 33, 64, 31, 16, 200, 1, 2, 3, 4, 5, 6, 18];
    let input = [&front[..], b"\x03\x01\x00\x00\x06\x00\x00\xff"].concat();
    let swarm = swarm_limits(&given, &input);
    let said = Limits {
        max_types: 2,
        max_imports: 0,
        max_funcs: 0,
        max_exports: 255,
        max_globals: 0,
        max_tables: 0,
        max_tags: 0,
        max_memories: 1,
        max_modules: 1,
        max_components: 0,
        max_instances: 31,
        max_nesting_depth: 0,
        max_type_size: 200,
        multi_value_enabled: true,
        exceptions_enabled: false,
        reference_types_enabled: true,
        simd_enabled: false,
        allow_floats: true,
        bulk_memory_enabled: false,
        finish_after: 2,
        ..given
    };
    assert_eq!((swarm.limits, swarm.rest), (said, &input[20..]));
    assert_eq!(swarm_limits(&given, &input[..1]).limits.max_types, 2);
    assert_eq!(swarm_limits(&given, &input[..1]).rest, b"");
}

#[test]
fn a_component_larger_than_the_first_output() {
    let mut input = b"\x01\x00\x00".to_vec();
    for _ in 0..10_000 {
        input.extend_from_slice(b"\x01\x2a");
    }
    let made = generate(&Limits::default(), &input).unwrap();
    assert_eq!(made.bytes.len(), 8 + 1 + 2 + 1 + 10_000);
    assert!(made.bytes.ends_with(&[0x2a; 10_000]));
}

#[test]
fn threads_give_the_same_component() {
    let input: Vec<u8> = (0..4096u32).map(|place| (place * 7 % 251) as u8).collect();
    let alone = generate(&Limits::default(), &input).unwrap();
    std::thread::scope(|scope| {
        let threads = [(); 4].map(|()| scope.spawn(|| generate(&Limits::default(), &input)));
        for thread in threads {
            assert_eq!(thread.join().unwrap().as_ref(), Ok(&alone));
        }
    });
}

#[test]
fn combinations_are_counted() {
    // The component has one: a type that is declared at the root.
    let plan = b"\x03\x01\x00\x00\x06\x00\x00\xff";
    let limits = Limits::default();
    let mut counters = [0; 64];
    assert_eq!(features(&limits, b"", &mut counters), Ok(()));
    assert_eq!(counters, [0; 64]);
    assert_eq!(features(&limits, plan, &mut counters), Ok(()));
    let place = counters.iter().position(|&counter| counter == 1).unwrap();
    let mut counted = [0; 64];
    counted[place] = 1;
    assert_eq!(counters, counted);
    counters[place] = 254;
    for _ in 0..2 {
        assert_eq!(features(&limits, plan, &mut counters), Ok(()));
        assert_eq!(counters[place], 255);
    }
    assert_eq!(features(&limits, plan, &mut []), Ok(()));
    let crossed = Limits { min_types: 5, max_types: 4, ..limits };
    assert_eq!(features(&crossed, plan, &mut counted), Err(Refusal::InconsistentLimits));
    assert_eq!((counted[place], counted.iter().sum()), (1, 1u8));
}

#[test]
fn components_are_judged() {
    let preamble = b"\x00asm\x0d\x00\x01\x00";
    assert_eq!(check(preamble), Ok(Verdict::WellFormed));
    assert_eq!(check(&[&preamble[..], b"\x07\x04\x02\x7f\x70\x00"].concat()), Ok(Verdict::WellFormed));
    let of_itself = [&preamble[..], b"\x07\x04\x02\x7f\x70\x01"].concat();
    assert_eq!(check(&of_itself), Ok(Verdict::IllFormed { offset: Some(12) }));
    assert_eq!(check(b"\x00asm\x01\x00\x00\x00"), Ok(Verdict::Unread { offset: 0 }));
    assert_eq!(check(b""), Ok(Verdict::Unread { offset: 0 }));
}

#[test]
fn bytes_are_answered() {
    let preamble = b"\x00asm\x0d\x00\x01\x00";
    let said = |section: &[u8]| validate(&[&preamble[..], section].concat()).unwrap().to_string();
    assert_eq!(validate(preamble), Ok(Answer::Valid));
    assert_eq!(said(b"\x07\x02\x01\x79"), "valid");
    assert_eq!(said(b"\x07\x04\x02\x7f\x70\x01"), "invalid: no type has that index at offset 12");
    assert_eq!(said(b"\x07\x82\x00\x01\x7f"), "outside: a number is padded, too great or negative at offset 9");
    let tuples = [0x79, 0, 1].map(|of| [&b"\x6f\x64"[..], &[of; 100]].concat()).concat();
    let too_large = "bound: the effective size of a type is 1000000 or more at offset 216";
    assert_eq!(said(&[&b"\x07\xb3\x02\x03"[..], &tuples].concat()), too_large);
    let Ok(Answer::Invalid { rule, offset }) = validate(b"") else {
        panic!("no bytes are invalid");
    };
    assert_eq!((rule.number(), rule.text(), offset), (102, "a preamble is missing", 0));
}

#[test]
fn components_are_printed() {
    let preamble = b"\x00asm\x0d\x00\x01\x00";
    assert_eq!(print(preamble).as_deref(), Ok("(component)\n"));
    let of_itself = [&preamble[..], b"\x07\x04\x02\x7f\x70\x01"].concat();
    let text = "(component\n  (type (;0;) bool)\n  (type (;1;) (list 1))\n)\n";
    assert_eq!(print(&of_itself).as_deref(), Ok(text));
    assert_eq!(print(b""), Err(NoText::Unread));
    // A core module with a section of functions, which has none.
    let other_module = [&preamble[..], b"\x01\x0b\x00asm\x01\x00\x00\x00\x03\x01\x00"].concat();
    assert_eq!(print(&other_module), Err(NoText::OtherCoreModule));
}

#[test]
fn a_text_larger_than_the_first_output() {
    let types = [&b"\x00asm\x0d\x00\x01\x00\x07\x65\x64"[..], &[0x7f; 100]].concat();
    let lines: String = (0..100).map(|index| format!("  (type (;{index};) bool)\n")).collect();
    assert_eq!(print(&types), Ok(format!("(component\n{lines})\n")));
}

#[test]
fn a_component_has_its_script() {
    let component = b"\x00asm\x0d\x00\x01\x00\x07\x02\x01\x79";
    let written = script(&Limits::default(), component).unwrap();
    assert_eq!(written, b"\x03\x01\x00\x00\x06\x00\x00");
    let made = generate(&Limits::default(), &written).unwrap();
    assert_eq!((made.bytes, made.left), (component.to_vec(), 0));
}

#[test]
fn a_script_larger_than_the_first_output() {
    let mut input = b"\x01\x00\x00".to_vec();
    for _ in 0..10_000 {
        input.extend_from_slice(b"\x01\x2a");
    }
    input.extend_from_slice(b"\x00\x00");
    let made = generate(&Limits::default(), &input).unwrap();
    assert_eq!(made.left, 0);
    assert_eq!(script(&Limits::default(), &made.bytes), Ok(input));
}

#[test]
fn what_has_no_script_is_refused() {
    let preamble = b"\x00asm\x0d\x00\x01\x00";
    let crossed = Limits { min_types: 5, max_types: 4, ..Limits::default() };
    assert_eq!(script(&crossed, preamble), Err(NoScript::InconsistentLimits));
    assert_eq!(script(&Limits::default(), b""), Err(NoScript::Unread { offset: 0 }));
    let of_itself = [&preamble[..], b"\x07\x04\x02\x7f\x70\x01"].concat();
    assert_eq!(script(&Limits::default(), &of_itself), Err(NoScript::IllFormed));
    // Two types where there may be one: the length of their section is for one type more.
    let few = Limits { max_types: 1, ..Limits::default() };
    let two = [&preamble[..], b"\x07\x03\x02\x7f\x7f"].concat();
    assert_eq!(script(&few, &two), Err(NoScript::CannotBeGenerated { offset: Some(9) }));
    let imports = Limits { min_imports: 1, ..Limits::default() };
    assert_eq!(script(&imports, preamble), Err(NoScript::CannotBeGenerated { offset: None }));
}

#[test]
fn the_library_is_of_this_version() {
    assert_eq!(library_version(), env!("CARGO_PKG_VERSION"));
}

#[test]
fn smaller_components() {
    let type_of_u32 = b"\x00asm\x0d\x00\x01\x00\x07\x02\x01\x79";
    let limits = Limits::default();
    let nth = |k| smaller(Some(&limits), type_of_u32, k).unwrap();
    assert_eq!(nth(0).as_deref(), Some(&b"\x00asm\x0d\x00\x01\x00"[..]));
    assert_eq!(nth(1).as_deref(), Some(&b"\x00asm\x0d\x00\x01\x00\x07\x01\x00"[..]));
    assert_eq!(nth(2).as_deref(), Some(&b"\x00asm\x0d\x00\x01\x00\x07\x02\x01\x7f"[..]));
    assert_eq!(nth(3), None);
    assert_eq!(without(type_of_u32, 1), Ok(nth(1)));
    assert_eq!(without(type_of_u32, 2), Ok(None));
    assert_eq!(smaller(None, b"", 0), Err(Unreduced::Unread));
    let deep = Limits { max_nesting_depth: 1001, ..Limits::default() };
    assert_eq!(smaller(Some(&deep), type_of_u32, 0), Err(Unreduced::InconsistentLimits));
}

#[test]
fn smaller_components_by_their_steps() {
    let type_of_u32 = b"\x00asm\x0d\x00\x01\x00\x07\x02\x01\x79";
    let limits = Limits::default();
    let numbers = [0, 1, 2, 3, 4].map(|from| {
        let step = next_smaller(Some(&limits), type_of_u32, from).unwrap();
        step.map(|step| step.number)
    });
    // The section, which step 2 would make simpler, has no simpler form.
    assert_eq!(numbers, [Some(0), Some(1), Some(3), Some(3), None]);
    let step = next_smaller(None, type_of_u32, 2).unwrap().unwrap();
    assert_eq!(step.bytes, b"\x00asm\x0d\x00\x01\x00\x07\x02\x01\x7f");
    assert_eq!(next_smaller(None, b"", 0), Err(Unreduced::Unread));
    let a_type = Limits { min_types: 1, ..limits };
    let step = next_smaller(Some(&a_type), type_of_u32, 0).unwrap().unwrap();
    assert_eq!(step.number, 3);
}

#[test]
fn changed_components() {
    // Types 0 and 1 are `bool` and a list of type 0: six places.
    let list = b"\x00asm\x0d\x00\x01\x00\x07\x04\x02\x7f\x70\x00";
    assert_eq!(change_count(list), Ok(96));
    let beyond = changed(list, 81).unwrap().unwrap();
    assert_eq!(beyond.bytes, b"\x00asm\x0d\x00\x01\x00\x07\x04\x02\x7f\x70\x01");
    assert_eq!(beyond.answer.to_string(), "invalid: no type has that index at offset 12");
    assert_eq!(changed(list, 64).unwrap().map(|option| option.answer), Some(Answer::Valid));
    assert_eq!(changed(list, 80), Ok(None));
    assert_eq!(changed(list, 96), Ok(None));
    assert_eq!(changed(b"", 0), Err(Unreduced::Unread));
    assert_eq!(change_count(b""), Err(Unreduced::Unread));
    let step = next_changed(list, 65).unwrap().unwrap();
    assert_eq!((step.number, step.bytes), (81, beyond.bytes));
    assert_eq!(next_changed(list, 86), Ok(None));
    assert_eq!(next_changed(b"", 0), Err(Unreduced::Unread));
}

#[test]
fn miswritten_components() {
    let type_of_u32 = b"\x00asm\x0d\x00\x01\x00\x07\x02\x01\x79";
    // Cut after 9 bytes, the section has no length.
    let cut = next_miswritten(type_of_u32, 9).unwrap().unwrap();
    assert_eq!((cut.number, &cut.bytes[..]), (9, &type_of_u32[..9]));
    // Cut after 8, it is a component.
    assert_eq!(next_miswritten(type_of_u32, 8).unwrap().unwrap().number, 9);
    // After 12 cuts the section's length, its id and its count, and 8 bytes of the preamble.
    let numbers = (12..24).map(|from| next_miswritten(type_of_u32, from).unwrap().unwrap());
    for (from, step) in (12..24).zip(numbers) {
        assert_eq!(step.number, from);
        assert!(matches!(validate(&step.bytes), Ok(Answer::Invalid { .. })), "{:?}", step.bytes);
    }
    assert_eq!(next_miswritten(type_of_u32, 24), Ok(None));
    assert_eq!(next_miswritten(b"", 0), Ok(None));
}

#[test]
fn joined_components() {
    let type_of_u32 = b"\x00asm\x0d\x00\x01\x00\x07\x02\x01\x79";
    let two = b"\x00asm\x0d\x00\x01\x00\x07\x02\x01\x79\x07\x02\x01\x79";
    assert_eq!(join(type_of_u32, type_of_u32).as_deref(), Ok(&two[..]));
    assert_eq!(join(type_of_u32, b""), Err(Unreduced::Unread));
}

#[test]
fn a_component_is_reduced() {
    let input: Vec<u8> = (0..4096u32).map(|place| (place * 7 % 251) as u8).collect();
    let limits = Limits { finish_after: 8, ..Limits::default() };
    let found = generate(&limits, &input).unwrap().bytes;
    let nothing = b"\x00asm\x0d\x00\x01\x00";
    assert_eq!(reduce(&found, |_| true).as_deref(), Ok(&nothing[..]));
    assert_eq!(reduce(&found, |_| false), Ok(found.clone()));
    let is_longer = |bytes: &[u8]| bytes.len() > 11;
    let least = reduce(&found, is_longer).unwrap();
    assert!(is_longer(&least) && least.len() < 16, "{least:?}");
    let mut from = 0;
    while let Some(step) = next_smaller(None, &least, from).unwrap() {
        assert!(!is_longer(&step.bytes), "{:?}", step.bytes);
        from = step.number + 1;
    }
}
