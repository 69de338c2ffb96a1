//! protobuf_parse from Rust: a safe face of the C library, and a program that writes a set:
//! `protobuf_parse FILE..` compiles the files, by their paths, to standard output.

use std::fs;
use std::io::Write;

#[repr(C)]
struct Text {
    bytes: *const u8,
    len: usize,
}

#[repr(C)]
struct File {
    path: Text,
    content: Text,
}

#[repr(C)]
#[derive(Clone, Copy, Default)]
struct Span {
    at: usize,
    len: usize,
}

#[repr(C)]
#[derive(Clone, Copy, Default)]
struct RawFault {
    file: Span,
    line: u32,
    column: u32,
    severity: u32,
    code: Span,
    message: Span,
    help: Span,
}

#[repr(C)]
#[derive(Default)]
struct Sizes {
    set: usize,
    texts: usize,
    faults: usize,
}

#[rustfmt::skip]
unsafe extern "C" {
    fn protobuf_parse_compile(
        files: *const File, files_len: usize,
        inputs: *const Text, inputs_len: usize,
        flags: u32,
        set: *mut u8, set_len: usize,
        texts: *mut u8, texts_len: usize,
        faults: *mut RawFault, faults_len: usize,
        sizes: *mut Sizes,
    ) -> i32;
}

/// What is told of a file.
#[derive(Debug)]
pub struct Fault {
    pub file: String,
    pub line: u32,
    pub column: u32,
    pub is_error: bool,
    pub message: String,
}

fn text_of(bytes: &[u8]) -> Text {
    Text { bytes: bytes.as_ptr(), len: bytes.len() }
}

/// The set of the inputs and all that they reach among the files, which have proto paths and
/// contents; or what is wrong.
pub fn compiled(files: &[(&str, &[u8])], inputs: &[&str]) -> Result<Vec<u8>, Vec<Fault>> {
    let file_of = |it: &(&str, &[u8])| File { path: text_of(it.0.as_bytes()), content: text_of(it.1) };
    let files: Vec<File> = files.iter().map(file_of).collect();
    let inputs: Vec<Text> = inputs.iter().map(|it| text_of(it.as_bytes())).collect();
    let mut sizes = Sizes::default();
    loop {
        let mut set = vec![0; sizes.set];
        let mut texts = vec![0; sizes.texts];
        let mut faults = vec![RawFault::default(); sizes.faults];
        // SAFETY: each pointer has the length behind it, and lasts for the call.
        let status = unsafe {
            protobuf_parse_compile(
                files.as_ptr(), files.len(),
                inputs.as_ptr(), inputs.len(),
                0,
                set.as_mut_ptr(), set.len(),
                texts.as_mut_ptr(), texts.len(),
                faults.as_mut_ptr(), faults.len(),
                &mut sizes,
            )
        };
        let text = |at: Span| String::from_utf8_lossy(&texts[at.at..at.at + at.len]).into_owned();
        match status {
            0 => return Ok(set),
            1 => return Err(faults.iter().map(|it| Fault {
                file: text(it.file),
                line: it.line,
                column: it.column,
                is_error: it.severity == 1,
                message: text(it.message),
            }).collect()),
            2 => continue,
            _ => panic!("out of memory"),
        }
    }
}

fn main() {
    let paths: Vec<String> = std::env::args().skip(1).collect();
    let contents: Vec<Vec<u8>> = paths.iter().map(|it| fs::read(it).expect(it)).collect();
    let files: Vec<(&str, &[u8])> =
        paths.iter().zip(&contents).map(|(path, it)| (path.as_str(), it.as_slice())).collect();
    let inputs: Vec<&str> = paths.iter().map(|it| it.as_str()).collect();
    match compiled(&files, &inputs) {
        Ok(set) => std::io::stdout().write_all(&set).expect("standard output takes no more"),
        Err(faults) => {
            for it in &faults {
                let severity = if it.is_error { "error" } else { "warning" };
                eprintln!("{}:{}:{}: {severity}: {}", it.file, it.line, it.column, it.message);
            }
            std::process::exit(1);
        }
    }
}
