#![no_main]

use libfuzzer_sys::fuzz_target;

fuzz_target!(|component: lupinanon::Component| {
    accepts(component.as_bytes());
});

/// What is fuzzed: put a call of yours here.
fn accepts(component: &[u8]) -> bool {
    component.starts_with(b"\0asm")
}
