//! Reading and writing alone, which no program over the same bytes can do without: reads standard input to its end into a buffer of
//! 64 KiB and writes from it, buffer by buffer as the input comes, as many bytes as it is told.
//!
//!     bare_copy BYTES-OF-INPUT BYTES-TO-WRITE

use std::fs::File;
use std::io::{Read, Write};
use std::os::fd::AsFd;

/// The size of the buffers of `verdict` and of the expert's.
const BUFFER: usize = 65536;

fn main() {
    let told: Vec<usize> = std::env::args()
        .skip(1)
        .map(|word| word.parse().expect("a number"))
        .collect();
    let [input, output] = told[..] else {
        panic!("bare_copy BYTES-OF-INPUT BYTES-TO-WRITE")
    };
    let mut stdin = File::from(std::io::stdin().as_fd().try_clone_to_owned().unwrap());
    let mut stdout = File::from(std::io::stdout().as_fd().try_clone_to_owned().unwrap());
    let mut buffer = vec![0u8; BUFFER];
    let (mut read, mut written) = (0, 0);
    loop {
        let got = stdin.read(&mut buffer).unwrap();
        if got == 0 {
            break;
        }
        read += got;
        while written + BUFFER <= output * read / input {
            stdout.write_all(&buffer).unwrap();
            written += BUFFER;
        }
    }
    assert_eq!(read, input);
    while written < output {
        let n = BUFFER.min(output - written);
        stdout.write_all(&buffer[..n]).unwrap();
        written += n;
    }
}
