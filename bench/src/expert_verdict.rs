//! The program `verdict` as an expert would write it for speed: the table is decoded once for each text, so that a
//! notice costs its own check and the run.

use bench::{expert, translate};
use std::io::{Read, Write};

fn put_number(out: &mut Vec<u8>, n: usize) {
    out.push(b' ');
    let mut digits = [0u8; 20];
    let mut i = 20;
    let mut n = n;
    loop {
        i -= 1;
        digits[i] = b'0' + (n % 10) as u8;
        n /= 10;
        if n == 0 {
            break;
        }
    }
    out.extend_from_slice(&digits[i..]);
}

fn put_notice(out: &mut Vec<u8>, program: Option<&expert::Program>, notice: &[u8]) {
    let (number, (verdict, steps, undecided), place) = match program {
        None => (12, expert::NOT_RUN, 0),
        Some(p) => match expert::check_notice(notice) {
            Some(place) => (11, expert::NOT_RUN, place),
            // SAFETY: the notice has just been checked
            None => (0, unsafe { expert::run(p, notice) }, 0),
        },
    };
    out.push(b'N');
    put_number(out, number);
    out.extend_from_slice([&b" false"[..], b" bottom", b" true"][verdict as usize]);
    put_number(out, steps);
    put_number(out, place);
    put_number(out, undecided as usize);
    out.push(b'\n');
}

fn main() {
    let mut stdin = std::io::stdin().lock();
    let mut stdout = std::fs::File::from(
        std::os::fd::AsFd::as_fd(&std::io::stdout())
            .try_clone_to_owned()
            .unwrap(),
    );
    let mut input = vec![0u8; 65536];
    let (mut from, mut end) = (0, 0);
    let mut out = Vec::with_capacity(65536 + 128);
    let mut table = vec![0u8; 10250];
    let mut code = expert::no_code();
    let mut held = 0;
    loop {
        // the record that stands first, if it has come whole
        let have = end - from;
        let len = if have >= 4 {
            u32::from_le_bytes(input[from..from + 4].try_into().unwrap()) as usize
        } else {
            2
        };
        if !(2..=16380).contains(&len) {
            out.extend_from_slice(b"E\n");
            break;
        }
        if have < 4 || have < 4 + len {
            if end > 49152 {
                input.copy_within(from..end, 0);
                end -= from;
                from = 0;
            }
            let got = stdin.read(&mut input[end..]).unwrap();
            if got == 0 {
                if have > 0 {
                    out.extend_from_slice(b"E\n");
                }
                break;
            }
            end += got;
            continue;
        }
        let record = &input[from..from + 4 + len];
        from += 4 + len;
        match u16::from_le_bytes([record[4], record[5]]) {
            3 => {
                let (number, place, length) = translate::translate(1, &record[6..], &mut table);
                held = length;
                if held > 0 {
                    expert::decode(&table[..held], &mut code);
                }
                out.push(b'S');
                put_number(&mut out, number as usize);
                put_number(&mut out, place);
                put_number(&mut out, length);
                out.push(b'\n');
            }
            1 => {
                // SAFETY: the last text's table was decoded into `code`
                let program = unsafe { expert::decoded(&table[..held], &code) };
                put_notice(&mut out, program.as_ref(), record);
            }
            kind => {
                out.push(b'X');
                put_number(&mut out, kind as usize);
                out.push(b'\n');
            }
        }
        if out.len() >= 65536 {
            stdout.write_all(&out).unwrap();
            out.clear();
        }
    }
    stdout.write_all(&out).unwrap();
}
