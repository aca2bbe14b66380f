//! The program `jihfasul-table`: what it prints and writes, and its exit status.

use std::fs;
use std::path::PathBuf;
use std::process::{Command, Output};

const GOOD: &str = "node \"n\" \"\"\nmodule m \"\"\n    parameter p \"\" bool = true\n";
const GOOD_BYTES: &[u8] = b"ND\x01n\0MO\x01m\0PA\x01p\0\0\x03\0\x04trueEN";

/// A folder for one test's files, empty at first.
struct Folder(PathBuf);

impl Folder {
    fn new(name: &str) -> Folder {
        let path = std::env::temp_dir().join(format!("jihfasul-{name}-{}", std::process::id()));
        fs::create_dir_all(&path).expect("a folder");
        Folder(path)
    }

    fn file(&self, name: &str, content: &[u8]) -> String {
        let path = self.path(name);
        fs::write(&path, content).expect("a file");
        path
    }

    fn path(&self, name: &str) -> String {
        self.0.join(name).display().to_string()
    }
}

impl Drop for Folder {
    fn drop(&mut self) {
        let _ = fs::remove_dir_all(&self.0);
    }
}

/// The exit status, what is printed, and what is said on standard error.
fn run(arguments: &[&str]) -> (Option<i32>, String, String) {
    let mut tool = Command::new(env!("CARGO_BIN_EXE_jihfasul-table"));
    let Output {
        status,
        stdout,
        stderr,
    } = tool.args(arguments).output().expect("the program runs");
    let text = |bytes| String::from_utf8(bytes).expect("text");
    (status.code(), text(stdout), text(stderr))
}

#[test]
fn build_writes_the_table() {
    let folder = Folder::new("build");
    let (text, table) = (folder.file("text", GOOD.as_bytes()), folder.path("table"));
    let said = format!("{table}: 25 bytes, 1 module, 1 parameter, 0 commands\n");
    assert_eq!(
        run(&["build", &text, &table]),
        (Some(0), said, String::new())
    );
    assert_eq!(fs::read(&table).expect("a table"), GOOD_BYTES);
}

#[test]
fn build_writes_nothing_of_a_faulty_text() {
    let folder = Folder::new("faulty");
    let faulty = GOOD.replace("true", "maybe");
    let text = folder.file("text", faulty.as_bytes());
    let table = folder.path("table");
    let said = format!(
        "{text}: line 3, column 27: a bool is true or false; here is maybe (number 5)\n{table} is not written.\n"
    );
    assert_eq!(
        run(&["build", &text, &table]),
        (Some(1), String::new(), said.clone())
    );
    assert!(!fs::exists(&table).expect("a folder"));
    folder.file("table", b"last night's");
    assert_eq!(
        run(&["build", &text, &table]),
        (Some(1), String::new(), said)
    );
    assert_eq!(fs::read(&table).expect("a table"), b"last night's");
}

#[test]
fn explain_prints_the_text() {
    let folder = Folder::new("explain");
    let good = folder.file("good", GOOD_BYTES);
    let expected = GOOD.replace("module", "\nmodule");
    assert_eq!(
        run(&["explain", &good]),
        (Some(0), expected.clone(), String::new())
    );
    let bytes = String::from_utf8_lossy(GOOD_BYTES).replace("true", "null");
    let unfit = folder.file("unfit", bytes.as_bytes());
    let said = format!(
        "{unfit}: number 5, an initial value that is not in stored form, over 256 bytes, or doesn't fit\n\
         record 3 (parameter m:p), byte 19: a bool is true or false; here is null\n"
    );
    let printed = expected.replace("true", "null");
    assert_eq!(run(&["explain", &unfit]), (Some(1), printed, said));
    let cut = folder.file("cut", &GOOD_BYTES[..20]);
    let (status, printed, said) = run(&["explain", &cut]);
    assert_eq!((status, printed.as_str()), (Some(1), ""));
    assert!(
        said.ends_with(&format!("{cut} can't be told as a text.\n")),
        "{said}"
    );
}

#[test]
fn check_tells_number_and_record() {
    let folder = Folder::new("check");
    let good = folder.file("good", GOOD_BYTES);
    let said = format!("{good}: number 0, accepted: 25 bytes, 1 module, 1 parameter, 0 commands\n");
    assert_eq!(run(&["check", &good]), (Some(0), said, String::new()));
    let spoilt = String::from_utf8_lossy(GOOD_BYTES).replace("m\0PA\x01p", "m\0PA\x01-");
    let spoilt = spoilt.replace("true", "null");
    let bad = folder.file("bad", spoilt.as_bytes());
    let said = format!(
        "{bad}: number 3, a bad or repeated name, or a bad text\n\
         record 3 (parameter m:-), byte 12: a name has letters, digits and underscores only; - has -\n\
         record 3 (parameter m:-), byte 19: a bool is true or false; here is null (number 5)\n"
    );
    assert_eq!(run(&["check", &bad]), (Some(1), said, String::new()));
}

#[test]
fn a_text_is_not_taken_for_bytes_nor_bytes_for_a_text() {
    let folder = Folder::new("mixed");
    let text = folder.file("text", GOOD.as_bytes());
    let table = folder.file("table", GOOD_BYTES);
    let (status, _, said) = run(&["check", &text]);
    let expected = format!("{text} seems to be a text; build makes the bytes from it.\n");
    assert_eq!((status, said.as_str()), (Some(1), expected.as_str()));
    let (status, printed, said) = run(&["explain", &text]);
    assert_eq!((status, printed.as_str()), (Some(1), ""));
    assert_eq!(said.lines().last(), Some(expected.trim_end()));
    let none = folder.path("none");
    let bytes = "seems to be bytes already; explain prints them as a text.";
    let (status, printed, said) = run(&["build", &table, &none]);
    assert_eq!((status, printed.as_str()), (Some(1), ""));
    assert_eq!(said, format!("{table} {bytes}\n{none} is not written.\n"));
    // a text that only begins like bytes is looked at
    let text = folder.file("text", b"ND x\n");
    let (_, _, said) = run(&["build", &text, &none]);
    let lines: Vec<&str> = said.lines().collect();
    assert_eq!(
        (lines[0], lines.len()),
        (format!("{text} {bytes}").as_str(), 3)
    );
    assert!(
        lines[1].starts_with(&format!("{text}: line 1, column 1: a line begins")),
        "{said}"
    );
}

#[test]
fn the_text_is_not_replaced_by_its_table() {
    let folder = Folder::new("one");
    let text = folder.file("text", GOOD.as_bytes());
    let (link, hard, round) = (
        folder.path("link"),
        folder.path("hard"),
        folder.path("./text"),
    );
    std::os::unix::fs::symlink(&text, &link).expect("a link");
    fs::hard_link(&text, &hard).expect("a link");
    for (from, to) in [
        (&text, &text),
        (&text, &link),
        (&link, &text),
        (&text, &hard),
        (&text, &round),
    ] {
        let said = format!("{from} and {to} are one file, and the text would be lost\n");
        assert_eq!(run(&["build", from, to]), (Some(2), String::new(), said));
        assert_eq!(fs::read(&text).expect("a text"), GOOD.as_bytes());
    }
}

/// Standard output or standard error that takes nothing is no panic.
#[test]
fn a_full_output_is_said() {
    let folder = Folder::new("full");
    let (text, table) = (folder.file("text", GOOD.as_bytes()), folder.path("table"));
    let full = || {
        fs::OpenOptions::new()
            .write(true)
            .open("/dev/full")
            .expect("a device")
    };
    let tool = || Command::new(env!("CARGO_BIN_EXE_jihfasul-table"));
    let output = tool()
        .args(["build", &text, &table])
        .stdout(full())
        .output()
        .expect("the program runs");
    let said = String::from_utf8_lossy(&output.stderr);
    assert_eq!((output.status.code(), said.lines().count()), (Some(2), 1));
    assert!(said.starts_with("standard output: "), "{said}");
    assert!(said.ends_with(&format!("; {table} is written\n")), "{said}");
    assert_eq!(fs::read(&table).expect("a table"), GOOD_BYTES);
    let status = tool()
        .args(["check", &text])
        .stdout(full())
        .stderr(full())
        .status();
    assert_eq!(status.expect("the program runs").code(), Some(2));
    let status = tool()
        .args(["build", &table, &text])
        .stderr(full())
        .status();
    assert_eq!(status.expect("the program runs").code(), Some(1));
}

#[test]
fn what_cant_be_done_is_said() {
    let folder = Folder::new("usage");
    let (none, text) = (folder.path("none"), folder.file("text", GOOD.as_bytes()));
    for arguments in [
        vec!["build", &none, &none],
        vec!["explain", &none],
        vec!["check", &none],
    ] {
        let (status, printed, said) = run(&arguments);
        assert_eq!(
            (status, printed.as_str(), said.lines().count()),
            (Some(2), "", 1)
        );
        assert!(said.starts_with(&format!("{none}: ")), "{said}");
    }
    let nowhere = folder.path("no/where");
    let (status, printed, said) = run(&["build", &text, &nowhere]);
    assert_eq!((status, printed.as_str()), (Some(2), ""));
    assert!(said.starts_with(&format!("{nowhere}: ")), "{said}");
    for arguments in [
        vec![],
        vec!["build", &text],
        vec!["explain"],
        vec!["tell", &text],
    ] {
        let (status, printed, said) = run(&arguments);
        assert_eq!((status, printed.as_str()), (Some(2), ""));
        assert!(
            said.contains("usage: jihfasul-table build TEXT TABLE"),
            "{said}"
        );
    }
    let (status, printed, said) = run(&["--help"]);
    assert_eq!((status, said.as_str()), (Some(0), ""));
    assert!(
        printed.contains("usage: jihfasul-table build TEXT TABLE"),
        "{printed}"
    );
}
