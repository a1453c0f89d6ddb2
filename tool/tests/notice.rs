//! `notice`: what its commands print and write, and their exit status.
mod common;
use common::{Folder, EMPTY, OP42};

#[test]
fn notices_are_shown_and_made() {
    let folder = Folder::new("notices");
    folder.write("bin", [OP42, EMPTY].concat());
    folder
        .run(&["notice", "show", "bin"], b"")
        .is(0, "Op: 42\n\n(no fields)\n", "");
    let hex = "0F 00 00 00 01 00 01 00 09 00 01 00 02 4F 70 2A 00 00 00\n";
    let ran = folder.run(&["notice", "show", "--hex", "bin"], b"");
    ran.is(0, &format!("{hex}04 00 00 00 01 00 00 00\n"), "");
    folder
        .run(&["notice", "make", "--hex", "-n", "Op: 42"], b"")
        .is(0, hex, "");
    folder
        .run(
            &["notice", "make", "-o", "made", "-"],
            b"Op: 42\n\n(no fields)\n",
        )
        .is(0, "", "");
    assert_eq!(folder.read("made"), folder.read("bin"));
    let made = folder.run(&["notice", "make", "-"], b"Op: 42");
    assert_eq!((made.status, made.out.as_bytes()), (Some(0), OP42));
    folder
        .run(&["notice", "make", "-o", "no/such", "-n", ""], b"")
        .is(2, "", "no/such: there is no folder no\n");
}

/// A file that is read is not written: it would be empty before it is read.
#[test]
fn a_file_is_not_written_over_itself() {
    let folder = Folder::new("itself");
    folder.write("a", "Op: 42\n");
    std::fs::hard_link(folder.path().join("a"), folder.path().join("b")).unwrap();
    for output in ["a", "b", "./a"] {
        let ran = folder.run(&["notice", "make", "-o", output, "a"], b"");
        ran.refuses(&format!("{output} is read, and cannot be written"));
        folder
            .run(&["notice", "mend", "-o", output, "a"], b"")
            .refuses("");
    }
    assert_eq!(folder.read("a"), b"Op: 42\n");
}

#[test]
fn notices_to_and_from_ubf() {
    let folder = Folder::new("ubf");
    let text = "{\"Big\"5`int64`\"Key\"2~ab~\"Op\"42\"Staff\"\"4\\\"7\"}$\n";
    let shown = "Big: 5L\nKey: [61 62]\nOp: 42\nStaff: \"4\\\"7\"\n";
    folder
        .run(&["notice", "to-ubf", "-"], shown.as_bytes())
        .is(0, text, "");
    folder
        .run(&["notice", "from-ubf", "-o", "bin", "-"], text.as_bytes())
        .is(0, "", "");
    folder.run(&["notice", "show", "bin"], b"").is(0, shown, "");
    folder
        .run(&["notice", "to-ubf", "bin"], b"")
        .is(0, text, "");
    let ran = folder.run(
        &["notice", "to-ubf", "-n", "Real: 1.5", "-n", "Op: 42"],
        b"",
    );
    assert_eq!((ran.status, ran.out.as_str()), (Some(2), "{\"Op\"42}$\n"));
    assert!(ran.err.starts_with("notice 1: refused 23: "), "{}", ran.err);
    folder
        .run(&["notice", "from-ubf", "-n", "Op: 42"], b"")
        .refuses("refused 22: ");
    let ran = folder.run(
        &["notice", "show", "-"],
        b"{\"Op\" 42}$ {\"Op\" 'a'}$\n{\"Op\" 42}",
    );
    assert_eq!((ran.status, ran.out.as_str()), (Some(2), "Op: 42\n"));
    assert!(
        ran.err.contains("-#2 from byte 11: refused 23: "),
        "{}",
        ran.err
    );
    assert!(
        ran.err.contains("-#3 from byte 23: refused 22: "),
        "{}",
        ran.err
    );
    assert!(
        ran.err.ends_with("; it has no $ at its end\n"),
        "{}",
        ran.err
    );
}

/// The damaged notice of the example `mend`: out of order, twice, too short for its kind, and cut off.
#[test]
fn notices_are_mended() {
    let parts: [&[u8]; 6] = [
        b"\xff\0\0\0\x01\0\x09\0",
        b"\x0b\0\x04\0\x05Staff502",
        b"\x0e\0\x04\0\x07Consoleyard",
        b"\x0b\0\x04\0\x05Staff417",
        b"\x08\0\x01\0\x04Door\x02",
        b"\x0a\0\x04\0\x03CabT-",
    ];
    let folder = Folder::new("mend");
    folder.write("old", parts.concat());
    folder
        .run(&["notice", "show", "old"], b"")
        .refuses("refused 11: ");
    let list = "byte 8: kept, Staff: \"502\"\n\
        byte 21: moved, Console: \"yard\"\n\
        byte 37: repeated, Staff: \"417\"\n\
        byte 50: bad, a value of 1 byte is wrong for kind 1\n\
        byte 60: cut, the field's length 10 passes the end\n\
        mended: 2 fields, 37 bytes\n";
    folder.run(&["notice", "mend", "old"], b"").is(0, list, "");
    folder
        .run(&["notice", "mend", "-o", "new", "old"], b"")
        .is(0, list, "");
    folder
        .run(&["notice", "show", "new"], b"")
        .is(0, "Console: \"yard\"\nStaff: \"502\"\n", "");
    let kept = "byte 8: kept, Console: \"yard\"\nbyte 24: kept, Staff: \"502\"\nmended: 2 fields, 37 bytes\n";
    let ran = folder.run(&["notice", "mend", "-o", "-", "new"], b"");
    assert_eq!(
        (ran.status, ran.out.as_bytes(), ran.err.as_str()),
        (Some(0), &folder.read("new")[..], kept)
    );
    let ran = folder.run(&["notice", "mend", "--hex", "-"], EMPTY);
    ran.is(
        0,
        "mended: 0 fields, 8 bytes\n04 00 00 00 01 00 00 00\n",
        "",
    );
    folder
        .run(&["notice", "mend", "-"], b"short")
        .refuses("refused 30: ");
    folder
        .run(&["notice", "mend", "-"], &[0; 16_385])
        .refuses("refused 10: ");
    folder
        .run(&["notice", "mend", "old", "new"], b"")
        .refuses("one file");
}

/// Of several notices in one file each is mended, and what is refused is told of.
#[test]
fn several_notices_are_mended() {
    let folder = Folder::new("mend-several");
    let old: &[u8] = b"\xff\0\0\0\x01\0\x09\0\x0b\0\x04\0\x05Staff502\x09\0";
    folder.write("old", [OP42, old, EMPTY].concat());
    let list = "byte 8: kept, Op: 42\n\
        mended: 1 field, 19 bytes\n\
        old#2 from byte 19\n\
        byte 27: kept, Staff: \"502\"\n\
        byte 40: cut, the field's length 9 passes the end\n\
        mended: 1 field, 21 bytes\n\
        old#3 from byte 42\n\
        mended: 0 fields, 8 bytes\n";
    let ran = folder.run(&["notice", "mend", "-o", "new", "old"], b"");
    ran.is(0, list, "");
    folder.run(&["notice", "show", "new"], b"").is(
        0,
        "Op: 42\n\nStaff: \"502\"\n\n(no fields)\n",
        "",
    );
    let ran = folder.run(&["notice", "mend", "-o", "-", "old"], b"");
    assert_eq!((ran.status, ran.err.as_str()), (Some(0), list));
    assert_eq!(ran.out.as_bytes(), folder.read("new"));
}

#[test]
fn several_notices_from_a_pipe() {
    let folder = Folder::new("mend-pipe");
    let ran = folder.run(&["notice", "mend", "--hex", "-"], &EMPTY.repeat(2));
    let (hex, mended) = ("04 00 00 00 01 00 00 00\n", "mended: 0 fields, 8 bytes\n");
    ran.is(
        0,
        &format!("{mended}{hex}-#2 from byte 8\n{mended}{hex}"),
        "",
    );
    // 65 fields behind a notice that is right
    let fields: Vec<u8> = (0..65)
        .flat_map(|k| [5, 0, 4, 0, 2, b'A' + k / 10, b'0' + k % 10])
        .collect();
    let many = [OP42, &[200, 1, 0, 0, 1, 0, 64, 0], &fields].concat();
    let ran = folder.run(&["notice", "mend", "-o", "one", "-"], &many);
    assert_eq!(ran.status, Some(2));
    assert!(
        ran.err.starts_with("-#2 from byte 19: refused 15: "),
        "{}",
        ran.err
    );
    assert_eq!(folder.read("one"), OP42);
}

#[test]
fn a_field_is_found_by_its_name() {
    let folder = Folder::new("find");
    folder.write(
        "shift",
        "Staff: \"417\"\n\nConsole: \"yard\"\n\nStaff: 5; the\\ pipe: 1.5\n",
    );
    folder.run(&["notice", "find", "Staff", "shift"], b"").is(
        1,
        "shift: Staff: \"417\"\nshift#2: there is no field Staff\nshift#3: Staff: 5\n",
        "",
    );
    folder
        .run(
            &["notice", "find", "the pipe", "-n", "the\\ pipe: 1.5"],
            b"",
        )
        .is(0, "notice 1: the\\ pipe: 1.5\n", "");
    folder
        .run(&["notice", "find", "op", "-"], &[OP42, EMPTY].concat())
        .is(
            1,
            "-: there is no field op, but one \"Op\"\n-#2: there is no field op\n",
            "",
        );
    folder
        .run(&["notice", "find", "-q", "Op", "-"], OP42)
        .is(0, "", "");
    folder
        .run(&["notice", "find", "-q", "Op", "-"], EMPTY)
        .is(1, "", "");
}

#[test]
fn a_field_is_sought_in_what_is_no_notice() {
    let folder = Folder::new("find-refused");
    let ran = folder.run(
        &["notice", "find", "Op", "-"],
        &[EMPTY, OP42, &OP42[..9]].concat(),
    );
    assert_eq!(
        (ran.status, ran.out.as_str()),
        (Some(2), "-: there is no field Op\n-#2: Op: 42\n")
    );
    assert!(
        ran.err.starts_with("-#3 from byte 27: refused 11: "),
        "{}",
        ran.err
    );
    folder
        .run(&["notice", "find"], b"")
        .refuses("the name of a field comes first");
    folder
        .run(&["notice", "find", "Op"], b"")
        .refuses("a notice is lacking");
    let ran = folder.run(&["notice", "find", "\x1b[31m", "-"], OP42);
    assert_eq!((ran.status, ran.out.contains('\x1b')), (Some(1), false));
}
