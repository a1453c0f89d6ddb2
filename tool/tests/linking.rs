//! The program in Rust that the manual shows.
use std::fs;
use std::path::Path;

mod shown {
    use virentolex::{Edition, Notice, Refusal, Subscription, Verdict};

    pub fn main() -> Result<(), Refusal> {
        let subscription = Subscription::translate("Staff != \"417\"", Edition::First)?;
        let notice = Notice::builder().field("Console", "yard").build()?;
        let outcome = subscription.run(&notice)?;
        assert_eq!(outcome.verdict, Verdict::Bottom);
        if let Some(undecided) = outcome.undecided {
            let why = subscription.why(&notice, undecided)?;
            assert_eq!(why.to_string(), "entry 0: there is no field Staff");
        }
        Ok(())
    }
}

#[test]
fn the_program_of_the_manual_is_the_one_above() {
    shown::main().unwrap();
    let manual = Path::new(env!("CARGO_MANIFEST_DIR")).join("../docs/MANUAL.md");
    let manual = fs::read_to_string(manual).unwrap();
    let (_, above) = include_str!("linking.rs")
        .split_once("mod shown {\n")
        .unwrap();
    let (program, _) = above.split_once("\n}\n").unwrap();
    // both are set in by four blanks
    assert!(manual.contains(&program.replace("pub fn", "fn")));
}
