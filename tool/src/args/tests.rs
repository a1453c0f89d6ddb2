use super::*;

const ALL: [&str; 12] = [
    "edition", "form", "file", "notice", "output", "only", "table", "state", "size", "hex",
    "quiet", "help",
];

fn read(words: &[&str]) -> Result<Args, String> {
    let words: Vec<OsString> = words.iter().map(OsString::from).collect();
    Args::read(&words, &ALL)
}

fn plain(word: &str) -> Word {
    Word::Plain(word.into())
}

#[test]
fn words_and_options_in_any_order() {
    let args = read(&[
        "Op == 42",
        "--hex",
        "a.bin",
        "-n",
        "Op: 42",
        "-",
        "--edition=2",
        "-fx",
        "-o",
        "y",
    ])
    .unwrap();
    let words = [
        plain("Op == 42"),
        plain("a.bin"),
        Word::Notice("Op: 42".into()),
        plain("-"),
    ];
    assert_eq!(args.words, words);
    assert_eq!(args.edition, Edition::Second);
    assert_eq!(
        (args.file, args.output),
        (Some("x".into()), Some("y".into()))
    );
    assert!(args.hex && !args.quiet && !args.help);
}

#[test]
fn a_negative_literal_is_no_option() {
    assert_eq!(
        read(&["-7 / 2 == -3"]).unwrap().words,
        [plain("-7 / 2 == -3")]
    );
}

#[test]
fn two_dashes_end_the_options() {
    assert_eq!(
        read(&["--", "--hex", "--", "-q"]).unwrap().words,
        [plain("--hex"), plain("--"), plain("-q")]
    );
}

#[test]
fn forms_and_verdicts() {
    assert_eq!(read(&["--form", "ubf"]).unwrap().form, Some(Form::Ubf));
    assert_eq!(read(&["--size=64"]).unwrap().size, Some(64));
    assert_eq!(read(&["--only=true"]).unwrap().only, Some(Verdict::True));
}

#[test]
fn wrong_use() {
    for (words, why) in [
        (&["--nonesuch"][..], "no option --nonesuch"),
        (&["-z"], "no option -z"),
        (&["--"], ""),
        (&["--edition", "3"], "25"),
        (&["--edition"], "lacks its value"),
        (&["-n"], "lacks its value"),
        (&["--hex=1"], "takes no value"),
        (&["-qx"], "takes no value"),
        (&["-f", "a", "--file", "b"], "twice"),
        (&["--state", "a", "--state", "b"], "twice"),
        (&["--table=a", "--table=b"], "twice"),
        (&["--size=-1"], "a number of bytes"),
        (&["--size=64K"], "a number of bytes"),
        (&["--form=xml"], "binary, ubf or text"),
        (&["--only", "maybe"], "true, false or bottom"),
        (&["--=x"], "no option --"),
    ] {
        match read(words) {
            Ok(_) => assert_eq!(why, "", "{words:?}"),
            Err(said) => assert!(said.contains(why) && !why.is_empty(), "{words:?}: {said}"),
        }
    }
    let words = [OsString::from("--hex")];
    assert!(Args::read(&words, &["quiet"]).is_err());
    let words = [OsString::from("-h")];
    assert!(Args::read(&words, &[]).unwrap().help);
}
