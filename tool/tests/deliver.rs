//! `deliver`: who of a folder of subscriptions gets which notice.
mod common;
use common::{Folder, EMPTY, OP42};
use std::fs;

fn subscriptions(folder: &Folder, files: &[(&str, &str)]) {
    fs::create_dir(folder.path().join("subs")).unwrap();
    for (file, text) in files {
        folder.write(&format!("subs/{file}"), text);
    }
}

#[test]
fn who_of_a_folder_gets_which_notice() {
    let folder = Folder::new("deliver");
    subscriptions(
        &folder,
        &[
            ("yard", "Console == \"yard\"\n"),
            ("office", "Staff != \"417\""),
            (".hidden", "Op ="),
            ("all", "1 == 1"),
        ],
    );
    fs::create_dir(folder.path().join("subs/older")).unwrap();
    folder
        .run(&["table", "-o", "subs/table", "Op == 42"], b"")
        .is(0, "", "");
    folder.write("shift", "Console: \"yard\"\n\nStaff: \"502\"; Op: 42\n");
    folder.run(&["deliver", "subs", "shift"], b"").is(
        0,
        "shift: delivered to all, yard; bottom for office, table\n\
        shift#2: delivered to all, office, table; bottom for yard\n",
        "2 notices: 2 delivered\n",
    );
    fs::remove_file(folder.path().join("subs/all")).unwrap();
    let ran = folder.run(&["deliver", "subs", "-n", "Staff: \"417\"", "-"], OP42);
    ran.is(
        1,
        "notice 1: delivered to nobody; bottom for table, yard\n-: delivered to table; bottom for office, yard\n",
        "2 notices: 1 delivered, 1 to nobody\n",
    );
    folder
        .run(&["deliver", "-q", "subs", "-"], OP42)
        .is(0, "", "");
    folder
        .run(&["deliver", "-q", "subs", "-"], EMPTY)
        .is(1, "", "");
    let ran = folder.run(&["deliver", "subs", "-"], &OP42[..10]);
    ran.refuses("-: refused 11: ");
}

/// A subscription that is refused is told of, and the others get what is theirs.
#[test]
fn a_refused_subscription_stops_nobody_else() {
    let folder = Folder::new("deliver-refused");
    subscriptions(
        &folder,
        &[("a", "Op == 42"), ("b", "Op = 42"), ("c", "require (Op)")],
    );
    let ran = folder.run(&["deliver", "subs", "-"], OP42);
    assert_eq!(
        (ran.status, ran.out.as_str()),
        (Some(2), "-: delivered to a, c\n")
    );
    assert!(ran.err.starts_with("subs/b: refused 1: "), "{}", ran.err);
}

#[test]
fn sixty_four_subscriptions_and_no_more() {
    let folder = Folder::new("deliver-many");
    subscriptions(&folder, &[("a", "Op == 42"), ("c", "require (Op)")]);
    for k in 0..64 {
        folder.write(&format!("subs/d{k:02}"), "Op == 42");
    }
    let ran = folder.run(&["deliver", "subs", "-"], OP42);
    let names: Vec<String> = (0..62).map(|k| format!("d{k:02}")).collect();
    assert_eq!(
        ran.out,
        format!("-: delivered to a, c, {}\n", names.join(", "))
    );
    assert_eq!(ran.status, Some(2));
    assert!(
        ran.err.starts_with("subs/d62: refused 27: ")
            && ran.err.contains("\nsubs/d63: refused 27: ")
    );
}

#[test]
fn words_that_name_no_folder() {
    let folder = Folder::new("deliver-words");
    subscriptions(&folder, &[("a", "Op == 42")]);
    fs::create_dir(folder.path().join("empty")).unwrap();
    for (words, why) in [
        (
            &["deliver"][..],
            "a folder of subscription files comes first",
        ),
        (&["deliver", "subs"], "a notice is lacking"),
        (
            &["deliver", "subs", "-", "-"],
            "standard input is named twice",
        ),
        (&["deliver", "none", "-"], "none: there is no such folder"),
        (&["deliver", "subs/a", "-"], "subs/a: it is no folder"),
        (
            &["deliver", "empty", "-"],
            "empty: there is no subscription in it",
        ),
    ] {
        folder.run(words, OP42).refuses(why);
    }
}
