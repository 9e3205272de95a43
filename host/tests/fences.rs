//! The fences themselves: a touch one place outside a lent run must end the run that makes it.

use std::env;
use std::process::Command;
use wort_host::fenced::{Fenced, Side};
use wort_host::X86_64;

/// Which touch a child of this test is to make.
const TOUCH: &str = "WORT_TEST_TOUCH";

#[test]
fn a_touch_outside_faults() {
    if let Ok(touch) = env::var(TOUCH) {
        return make(&touch);
    }
    assert!(child("none"), "a run with no touch outside ends well");
    for touch in ["before", "behind", "read only"] {
        assert!(!child(touch), "the touch '{touch}' was not seen");
    }
}

fn child(touch: &str) -> bool {
    let this = env::args().next().expect("the test's own program");
    let run = Command::new(X86_64).args([&this, "--exact", "a_touch_outside_faults"]).env(TOUCH, touch).output();
    run.expect("the test's own program runs").status.success()
}

fn make(touch: &str) {
    let mut lent = Fenced::<u64>::new(5);
    let side = if touch == "before" { Side::Front } else { Side::Back };
    lent.lend(5, side);
    let first = lent.run_mut().as_mut_ptr();
    // SAFETY: none. The touches outside are meant to fault.
    unsafe {
        match touch {
            "before" => first.sub(1).read_volatile(),
            "behind" => first.add(5).read_volatile(),
            "read only" => lent.read_only(|run| {
                run.as_ptr().cast_mut().write_volatile(1);
                1
            }),
            _ => first.add(4).read_volatile(),
        };
    }
    lent.check();
}
