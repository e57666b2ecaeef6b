//! Calls ./run and ./install as a user does: arguments, each kind of standard input, exit statuses, and the proving. The proving is
//! tested in a copy of the commands in which a stub stands in place of tools/prove: it prints its lines and leaves the real programs.

use std::fs::{self, File, OpenOptions};
use std::io::{BufRead, BufReader, Read, Write};
use std::os::fd::FromRawFd;
use std::os::unix::fs::PermissionsExt;
use std::os::unix::net::UnixListener;
use std::os::unix::process::{CommandExt, ExitStatusExt};
use std::path::{Path, PathBuf};
use std::process::{Child, Command, ExitStatus, Stdio};
use std::time::{Duration, Instant};

extern "C" {
    fn posix_openpt(flags: i32) -> i32;
    fn grantpt(fd: i32) -> i32;
    fn unlockpt(fd: i32) -> i32;
    fn ptsname_r(fd: i32, name: *mut u8, length: usize) -> i32;
    fn setsid() -> i32;
    fn ioctl(fd: i32, request: u64, ...) -> i32;
    fn kill(process: i32, signal: i32) -> i32;
    fn signal(signal: i32, handler: usize) -> usize;
    fn close(fd: i32) -> i32;
    fn geteuid() -> u32;
}

/// The programs that ./run calls.
const PROGRAMS: [&str; 3] = ["choose", "replay", "choose_csv"];

const INT: i32 = 2;
const KILL: i32 = 9;
const PIPE: i32 = 13;
const TERM: i32 = 15;

/// No call takes so long; one that does waits for something.
const PATIENCE: Duration = Duration::from_secs(60);

// ---- A call and what came of it ----------------------------------------------------------------------------------------

struct Outcome {
    status: ExitStatus,
    out: String,
    err: String,
}

impl Outcome {
    fn code(&self) -> i32 {
        self.status.code().unwrap_or(-1)
    }
    fn is(&self, code: i32, out: &str, name: &str) -> &Outcome {
        assert_eq!((self.code(), self.out.as_str()), (code, out), "{name}; standard error:\n{}", self.err);
        self
    }
    fn says(&self, part: &str) -> &Outcome {
        assert!(self.err.contains(part), "standard error has no {part:?}:\n{}", self.err);
        self
    }
    fn says_not(&self, part: &str) -> &Outcome {
        assert!(!self.err.contains(part), "standard error has {part:?}:\n{}", self.err);
        self
    }
    fn says_lines(&self, n: usize) -> &Outcome {
        assert_eq!(self.err.lines().count(), n, "lines of standard error:\n{}", self.err);
        self
    }
}

fn ended(child: &mut Child, name: &str) -> ExitStatus {
    let start = Instant::now();
    loop {
        if let Some(status) = child.try_wait().unwrap() {
            return status;
        }
        if start.elapsed() > PATIENCE {
            let _ = child.kill();
            panic!("{name} does not end");
        }
        std::thread::sleep(Duration::from_millis(2));
    }
}

fn finish(mut child: Child, name: &str) -> Outcome {
    let text = |source: Option<Box<dyn Read + Send>>| {
        std::thread::spawn(move || {
            let mut text = String::new();
            if let Some(mut source) = source {
                source.read_to_string(&mut text).unwrap();
            }
            text
        })
    };
    let out = text(child.stdout.take().map(|s| Box::new(s) as Box<dyn Read + Send>));
    let err = text(child.stderr.take().map(|s| Box::new(s) as Box<dyn Read + Send>));
    let status = ended(&mut child, name);
    Outcome { status, out: out.join().unwrap(), err: err.join().unwrap() }
}

// ---- Folders of commands -----------------------------------------------------------------------------------------------

/// A folder with ./run and ./install: the repository, or a copy with the stub.
struct Tree {
    root: PathBuf,
    path: String,
}

impl Tree {
    fn command(&self, name: &str, words: &[&str]) -> Command {
        let mut c = Command::new(self.root.join(name));
        c.args(words).env("PATH", &self.path).env_remove("PREFIX").env_remove("DESTDIR").current_dir(&self.root);
        c.stdin(Stdio::null()).stdout(Stdio::piped()).stderr(Stdio::piped());
        c
    }
    fn call(&self, words: &[&str]) -> Outcome {
        finish(self.command("run", words).spawn().unwrap(), &format!("./run {words:?}"))
    }
    fn with_file(&self, words: &[&str], input: &str) -> Outcome {
        let mut c = self.command("run", words);
        c.stdin(File::open(input).unwrap());
        finish(c.spawn().unwrap(), &format!("./run {words:?} <{input}"))
    }
    fn with_pipe(&self, words: &[&str], input: &[u8]) -> Outcome {
        let mut c = self.command("run", words);
        let mut child = c.stdin(Stdio::piped()).spawn().unwrap();
        let _ = child.stdin.take().unwrap().write_all(input);
        finish(child, &format!("./run {words:?} on a pipe"))
    }
    fn write(&self, name: &str, text: &str) {
        let path = self.root.join(name);
        fs::create_dir_all(path.parent().unwrap()).unwrap();
        fs::write(path, text).unwrap();
    }
    fn exists(&self, name: &str) -> bool {
        self.root.join(name).exists()
    }
    fn remove(&self, name: &str) {
        fs::remove_file(self.root.join(name)).unwrap();
    }
    /// How often rt was called.
    fn calls(&self) -> usize {
        fs::read_to_string(self.root.join("calls")).map_or(0, |t| t.lines().count())
    }
    /// What the stub does: shell text with values for `status`, `wait`, `spoil`, `program` and `silent`.
    fn plan(&self, text: &str) {
        self.write("plan", text);
    }
}

/// In place of tools/prove, which calls rt: counts its calls, refuses to run beside itself, prints a line for each crate, leaves the program in two pieces, and
/// does as `plan` says. Like rt it works in a child in the background, which an interrupt from the terminal does not reach.
const STUB: &str = r#"#!/bin/sh
echo "$*" >>calls
status=0 wait= spoil= program= silent=
. ./plan
mkdir busy || { echo "rt: two at once"; exit 1; }
(
    trap 'rmdir busy; exit 1' TERM PIPE
    for name in $(cat order); do
        echo "rt: $name proved (1 s)"
        if [ "$name" = "$wait" ]; then
            : >waiting
            turns=0
            while [ ! -e go ] && [ $turns -lt 6000 ]; do sleep 0.01; turns=$((turns + 1)); done
        fi
    done
    [ -z "$spoil" ] || echo spoilt >>"$spoil"
    [ "$status" = 0 ] || echo "rt: answers NOT PROVED: the goal of line 7"
    mkdir -p target/bin target/staticlib
    for one in choose replay choose_csv; do
        from=${program:-real/$one}
        head -c 100 "$from" >"target/bin/$one"
        tail -c +101 "$from" >>"target/bin/$one"
        chmod 755 "target/bin/$one"
        [ -z "$silent" ] || rm "target/bin/$one"
    done
    cp real/libnolkrada.a target/staticlib/libnolkrada.a
    rmdir busy
) &
wait $!
exit $status
"#;

/// The crates of crates.txt that the named ones use, with them.
fn closure(names: &[&str]) -> Vec<String> {
    let text = fs::read_to_string("crates.txt").unwrap();
    let mut all: Vec<String> = names.iter().map(|s| s.to_string()).collect();
    let mut at = 0;
    while at < all.len() {
        let line = text.lines().find(|l| l.starts_with(&format!("{}:", all[at])));
        for used in line.map_or("", |l| l.split_once(':').unwrap().1).split_whitespace() {
            if !all.iter().any(|a| a == used) && text.lines().any(|l| l.starts_with(&format!("{used}:"))) {
                all.push(used.to_string());
            }
        }
        at += 1;
    }
    all
}

/// A copy of the commands with the stub, where nothing is built yet.
fn stub_tree(name: &str) -> Tree {
    let root = std::env::current_dir().unwrap().join("target/programs/trees").join(name);
    let _ = fs::remove_dir_all(&root);
    let tree = Tree { path: format!("{}:{}", root.join("bin").display(), std::env::var("PATH").unwrap()), root };
    let examples = ["examples/folder.sheet", "examples/overload.sheet", "examples/folder.csv", "examples/overload.csv"];
    for file in ["run", "install", "tools/build.sh", "include/nolkrada.h", "crates.txt"].into_iter().chain(examples) {
        let to = tree.root.join(file);
        fs::create_dir_all(to.parent().unwrap()).unwrap();
        fs::copy(file, to).unwrap();
    }
    for program in PROGRAMS {
        fs::create_dir_all(tree.root.join("real")).unwrap();
        fs::copy(format!("target/built/{program}"), tree.root.join("real").join(program)).unwrap();
    }
    tree.write("real/libnolkrada.a", "the archive\n");
    tree.write("crates/model/specs/Limits.antt", "limits\n");
    tree.write("crates/model/specs/Gap.antt", "gap\n");
    tree.write("order", &closure(&PROGRAMS).join("\n"));
    tree.write("tools/prove", STUB);
    tree.write("bin/rt", "#!/bin/sh\necho \"rt: called beside tools/prove\"\nexit 1\n");
    for command in ["tools/prove", "bin/rt"] {
        fs::set_permissions(tree.root.join(command), fs::Permissions::from_mode(0o755)).unwrap();
    }
    tree.plan("");
    tree
}

/// A path with every command of this one but rt.
fn path_without_rt(tree: &Tree) -> String {
    let folder = tree.root.join("tools-only");
    fs::create_dir_all(&folder).unwrap();
    for entry in std::env::split_paths(&std::env::var_os("PATH").unwrap()).filter_map(|p| fs::read_dir(p).ok()).flatten() {
        let from = entry.unwrap();
        if from.file_name() != "rt" {
            let _ = std::os::unix::fs::symlink(from.path(), folder.join(from.file_name()));
        }
    }
    folder.display().to_string()
}

fn stored(name: &str) -> String {
    fs::read_to_string(format!("examples/{name}")).unwrap()
}

fn example(end: &str) -> String {
    format!("example: examples/folder.sheet\n{}", stored(&format!("folder.{end}")))
}

const NO_FILE: &str = "run: no file was given: this is the example, examples/folder.sheet\n";
const NOT_READ: &str = "standard input was not read";

// ---- A terminal --------------------------------------------------------------------------------------------------------

/// A pseudo-terminal: the side of the keyboard and the screen, and the side of the program.
fn terminal() -> (File, File) {
    const READ_WRITE: i32 = 2;
    unsafe {
        let keyboard = posix_openpt(READ_WRITE);
        let mut name = [0u8; 64];
        assert!(keyboard >= 0 && grantpt(keyboard) == 0 && unlockpt(keyboard) == 0);
        assert_eq!(ptsname_r(keyboard, name.as_mut_ptr(), name.len()), 0);
        let end = name.iter().position(|&b| b == 0).unwrap();
        let path = std::str::from_utf8(&name[..end]).unwrap();
        // Not this program's own terminal.
        const NO_CONTROL: i32 = 0o400;
        use std::os::unix::fs::OpenOptionsExt;
        let side = OpenOptions::new().read(true).write(true).custom_flags(NO_CONTROL).open(path).unwrap();
        (File::from_raw_fd(keyboard), side)
    }
}

/// A call of ./run whose standard input is a terminal that can interrupt it. The keyboard's side stays open as long as the result.
fn at_terminal(tree: &Tree, words: &[&str]) -> (Child, File) {
    let (keyboard, side) = terminal();
    let mut c = tree.command("run", words);
    c.stdin(side);
    unsafe {
        c.pre_exec(|| {
            const SET_CONTROL: u64 = 0x540e;
            assert!(setsid() >= 0 && ioctl(0, SET_CONTROL, 0) == 0);
            Ok(())
        });
    }
    (c.spawn().unwrap(), keyboard)
}

// ---- Tests -------------------------------------------------------------------------------------------------------------

/// The file named, standard input, or the example: for the two programs on files.
fn inputs(tree: &Tree) {
    let folder = "examples/folder.sheet";
    for (option, end) in [(None, "choose"), (Some("--replay"), "replay")] {
        let words = |last: Option<&'static str>| -> Vec<&str> { option.into_iter().chain(last).collect() };
        for name in ["folder", "printed", "press", "overload", "months", "charge", "statistics"] {
            let (file, text) = (format!("examples/{name}.sheet"), stored(&format!("{name}.{end}")));
            let code = if text.starts_with("refused ") { 1 } else { 0 };
            let absolute = fs::canonicalize(&file).unwrap();
            let mut with: Vec<&str> = words(None);
            with.push(absolute.to_str().unwrap());
            tree.call(&with).is(code, &text, &file).says_lines(0);
            tree.with_file(&words(Some("-")), &file).is(code, &text, "a file on standard input").says_lines(0);
            tree.with_pipe(&words(Some("-")), &fs::read(&file).unwrap()).is(code, &text, "a pipe").says_lines(0);
        }
        let none = words(None);
        tree.call(&none).is(0, &example(end), "no file").says(NO_FILE).says_lines(1);
        tree.with_file(&none, "examples/overload.sheet").is(0, &example(end), "no file, a file on standard input");
        let said = tree.with_pipe(&none, &fs::read("examples/overload.sheet").unwrap());
        said.is(0, &example(end), "no file, a pipe").says(NO_FILE).says(NOT_READ).says_lines(2);
        said.says(option.map_or("./run - reads it, ./run --csv - as text", |_| "./run --replay - reads it"));
        tree.with_file(&none, folder).says(NOT_READ).says_lines(2);
        // A pipe on which nothing comes and that does not end.
        let mut c = tree.command("run", &none);
        let mut child = c.stdin(Stdio::piped()).spawn().unwrap();
        let open = child.stdin.take();
        finish(child, "./run on a silent pipe").is(0, &example(end), "a silent pipe").says(NOT_READ);
        drop(open);
        let mut c = tree.command("run", &none);
        unsafe { c.pre_exec(|| Ok(assert_eq!(close(0), 0))) };
        finish(c.spawn().unwrap(), "./run without standard input").is(0, &example(end), "closed").says_lines(1);
        let (child, _keyboard) = at_terminal(tree, &none);
        finish(child, "./run at a terminal").is(0, &example(end), "at a terminal").says(NO_FILE).says_lines(1);
        let (child, mut keyboard) = at_terminal(tree, &words(Some("-")));
        keyboard.write_all(b"typed\n\x04").unwrap();
        finish(child, "./run - at a terminal").is(1, "refused 1 at 0\n", "typed").says_lines(0);
    }
}

/// A text, named, on standard input or in pieces.
fn texts(tree: &Tree) {
    for name in ["folder", "printed", "press", "overload", "months"] {
        let (file, text) = (format!("examples/{name}.csv"), stored(&format!("{name}.choose")));
        let code = if text.starts_with("refused ") { 1 } else { 0 };
        let absolute = fs::canonicalize(&file).unwrap();
        let absolute = absolute.to_str().unwrap();
        tree.call(&[absolute]).is(code, &text, &file).says_lines(0);
        tree.call(&["--csv", absolute]).is(code, &text, &file).says_lines(0);
        tree.with_file(&["--csv", "-"], &file).is(code, &text, "a text on standard input").says_lines(0);
        tree.with_pipe(&["--csv", "-"], &fs::read(&file).unwrap()).is(code, &text, "a pipe").says_lines(0);
        // The wrong program for it, both ways round.
        tree.with_file(&["-"], &file).is(1, "refused 1 at 0\n", "a text in place of a file").says_lines(0);
        let sheet = format!("examples/{name}.sheet");
        tree.with_file(&["--csv", "-"], &sheet).is(1, "refused 16 at 0\n", "a file in place of a text").says_lines(0);
    }
    tree.with_pipe(&["--csv", "-"], b"").is(1, "refused 5 at 0\n", "an empty text").says_lines(0);
    let (child, mut keyboard) = at_terminal(tree, &["--csv", "-"]);
    keyboard.write_all(b"6,5,2,6\n8,7,2,8\n10,0,2,11\n\x04").unwrap();
    finish(child, "./run --csv - at a terminal").is(0, &stored("folder.choose"), "typed").says_lines(0);
    for write in [1, 2, 7] {
        in_writes(tree.command("run", &["--csv", "-"]), write);
        in_writes(Command::new("target/built/choose_csv"), write);
    }
    decided(tree);
    unread_text(tree);
}

/// A text that comes in many small writes answers as the whole.
fn in_writes(mut c: Command, bytes: usize) {
    c.stdin(Stdio::piped()).stdout(Stdio::piped()).stderr(Stdio::piped());
    let mut child = c.spawn().unwrap();
    let mut stdin = child.stdin.take().unwrap();
    for part in fs::read("examples/folder.csv").unwrap().chunks(bytes) {
        stdin.write_all(part).unwrap();
        std::thread::sleep(Duration::from_millis(1));
    }
    drop(stdin);
    finish(child, "a text in small writes").is(0, &stored("folder.choose"), "small writes").says_lines(0);
}

/// An answer that is decided ends the reading: the pipe stays open, and nothing more comes.
fn decided(tree: &Tree) {
    let many = "6,5,2,6\n".repeat(33);
    for (text, answer) in [
        ("\n", "refused 16 at 0\n"),
        ("x", "refused 16 at 0\n"),
        ("6,5,2,06", "refused 16 at 0\n"),
        ("6,5,2,6\r", "refused 16 at 0\n"),
        ("6,5,2,6\n6,5,7,6\n", "refused 6 at 1\n"),
        (many.as_str(), "refused 4 at 32\n"),
    ] {
        for (mut c, code) in [(Command::new("target/built/choose_csv"), 0), (tree.command("run", &["--csv", "-"]), 1)] {
            c.stdin(Stdio::piped()).stdout(Stdio::piped()).stderr(Stdio::piped());
            let mut child = c.spawn().unwrap();
            let mut open = child.stdin.take().unwrap();
            open.write_all(text.as_bytes()).unwrap();
            finish(child, "a text that is decided").is(code, answer, text).says_lines(0);
            drop(open);
        }
    }
}

/// A standard input that cannot be read: the program prints nothing, and ./run says that there is no answer.
fn unread_text(tree: &Tree) {
    let program = || {
        let mut c = Command::new("target/built/choose_csv");
        c.stdout(Stdio::piped()).stderr(Stdio::piped());
        c
    };
    let mut c = program();
    c.stdin(File::open("examples").unwrap());
    finish(c.spawn().unwrap(), "choose_csv on a directory").is(0, "", "a directory").says_lines(0);
    let mut c = program();
    unsafe { c.pre_exec(|| Ok(assert_eq!(close(0), 0))) };
    finish(c.spawn().unwrap(), "choose_csv without standard input").is(0, "", "closed").says_lines(0);
    // Open for writing alone.
    let mut c = program();
    c.stdin(OpenOptions::new().write(true).open("/dev/null").unwrap());
    finish(c.spawn().unwrap(), "choose_csv on an output").is(0, "", "an output").says_lines(0);
    // It can be opened, but nothing can be read from its start.
    if File::open("/proc/self/mem").is_ok() {
        let said = tree.call(&["--csv", "/proc/self/mem"]);
        said.is(3, "", "a failing read").says("choose_csv printed no whole answer").says_lines(1);
    }
}

/// The file's name is relative to the caller's folder, and may be any. ./run may be called by a link to it.
fn names(tree: &Tree) {
    let folder = tree.root.join("folder");
    fs::create_dir_all(&folder).unwrap();
    for name in ["-", "a b", "--replay", "*"] {
        fs::copy("examples/overload.sheet", folder.join(name)).unwrap();
        let mut c = tree.command("run", &[&format!("./{name}")]);
        finish(c.current_dir(&folder).spawn().unwrap(), name).is(1, &stored("overload.choose"), name).says_lines(0);
    }
    // The end of the name says which program it is for.
    for (name, text) in [
        ("a.csv", true), ("A.CSV", true), ("b.Csv", true), (".csv", true), ("a b.csv", true), ("c.sheet.csv", true), ("csv", false),
        ("acsv", false), ("a.csv.sheet", false), ("a.csvx", false), ("a.csv ", false), ("a.csv\n", false),
    ] {
        for file in ["overload.csv", "overload.sheet"] {
            fs::copy(format!("examples/{file}"), folder.join(name)).unwrap();
            let expected = match (file.ends_with(".csv"), text) {
                (true, true) | (false, false) => stored("overload.choose"),
                (false, true) => "refused 16 at 0\n".to_string(),
                (true, false) => "refused 1 at 0\n".to_string(),
            };
            let mut c = tree.command("run", &[&format!("./{name}")]);
            finish(c.current_dir(&folder).spawn().unwrap(), name).is(1, &expected, name).says_lines(0);
        }
        fs::copy("examples/folder.csv", folder.join(name)).unwrap();
        let mut c = tree.command("run", &["--csv", &format!("./{name}")]);
        finish(c.current_dir(&folder).spawn().unwrap(), name).is(0, &stored("folder.choose"), name).says_lines(0);
    }
    std::os::unix::fs::symlink(tree.root.join("run"), folder.join("link")).unwrap();
    finish(tree.command("folder/link", &[]).spawn().unwrap(), "a link").is(0, &example("choose"), "a link");
}

fn wrong_calls(tree: &Tree) {
    let wrong: [&[&str]; 20] = [
        &[""], &["a", "b"], &["-", "-"], &["examples/folder.sheet", "--replay"], &["-x"], &["--"], &["--replay", ""],
        &["--replay", "a", "b"], &["--replay", "--replay"], &["--csv"], &["--csv", ""], &["--csv", "--csv"], &["--csv", "-x"],
        &["--csv", "a", "b"], &["examples/folder.csv", "--csv"], &["-", "--csv"], &["a.csv", "b.csv"], &["-x.csv"], &["--CSV", "-"],
        &["--csv", "examples/folder.csv", "--replay"],
    ];
    for words in wrong {
        tree.call(words).is(2, "", &format!("{words:?}")).says("usage: ./run").says("run: ");
    }
    let no_releases: [&[&str]; 7] = [
        &["--replay", "examples/folder.csv"], &["--replay", "none.CSV"], &["--replay", "--csv", "examples/folder.csv"],
        &["--replay", "--csv", "-"], &["--replay", "--csv"], &["--csv", "--replay"], &["--csv", "--replay", "examples/folder.csv"],
    ];
    for words in no_releases {
        tree.call(words).is(2, "", &format!("{words:?}")).says("usage: ./run").says("run: a text has no releases");
    }
    for words in [&["-h"] as &[&str], &["--help"], &["--replay", "-h"], &["--csv", "-h"], &["--csv", "--help"]] {
        let said = tree.call(words);
        assert!(said.code() == 0 && said.out.starts_with("usage: ./run") && said.err.is_empty(), "{words:?}");
    }
}

/// A file that cannot be read is met before anything is proved, with one line.
fn unreadable(tree: &Tree) {
    let socket = tree.root.join("socket");
    let _keep = UnixListener::bind(&socket).unwrap();
    let locked = tree.root.join("locked");
    fs::write(&locked, "x").unwrap();
    fs::set_permissions(&locked, fs::Permissions::from_mode(0)).unwrap();
    let mut cases = vec![("missing", "no such file"), ("examples", "a directory"), ("socket", "cannot be read"), ("run/x", "no such file")];
    if unsafe { geteuid() } != 0 {
        cases.push(("locked", "cannot be read"));
    }
    for (name, why) in cases {
        tree.call(&[name]).is(2, "", name).says(&format!("run: {name}: ")).says(why).says_lines(1);
        tree.call(&["--replay", name]).is(2, "", name).says(why).says_lines(1);
        tree.call(&["--csv", name]).is(2, "", name).says(why).says_lines(1);
    }
    fs::create_dir(tree.root.join("folder.csv")).unwrap();
    tree.call(&["missing.csv"]).is(2, "", "a missing text").says("run: missing.csv: ").says("no such file").says_lines(1);
    tree.call(&["folder.csv"]).is(2, "", "a folder").says("run: folder.csv: ").says("a directory").says_lines(1);
    for words in [&["-"] as &[&str], &["--csv", "-"]] {
        let mut c = tree.command("run", words);
        c.stdin(File::open("examples").unwrap());
        finish(c.spawn().unwrap(), "./run - on a directory").is(2, "", "a directory").says("a directory").says_lines(1);
        let mut c = tree.command("run", words);
        unsafe { c.pre_exec(|| Ok(assert_eq!(close(0), 0))) };
        finish(c.spawn().unwrap(), "./run - without standard input").is(2, "", "closed").says("closed").says_lines(1);
    }
    assert_eq!(tree.calls(), 0, "rt was called for a file that cannot be read");
}

/// The first call proves and says how far it is while it goes on; later calls do not ask rt.
fn first_call() {
    let tree = stub_tree("first call");
    unreadable(&tree);
    wrong_calls(&tree);
    assert_eq!(tree.calls(), 0, "rt was called for a wrong call");
    tree.plan("wait=$(sed -n 3p order)");
    let mut child = tree.command("run", &[]).spawn().unwrap();
    let mut lines = BufReader::new(child.stderr.take().unwrap()).lines().map(Result::unwrap);
    let crates = closure(&PROGRAMS);
    let many = crates.len();
    assert_eq!(lines.next().unwrap() + "\n", NO_FILE);
    assert!(lines.next().unwrap().contains(&format!("{many} crates")));
    for (n, name) in crates.iter().enumerate() {
        assert_eq!(lines.next().unwrap(), format!("nolkrada: proved {} of {many}: {name} (1 s)", n + 1));
        if n == 2 {
            // So far while rt is at work.
            assert!(tree.exists("waiting") || child.try_wait().unwrap().is_none());
            tree.write("go", "");
        }
    }
    assert_eq!(lines.next(), None);
    finish(child, "the first call").is(0, &example("choose"), "the first call");
    assert_eq!(fs::read_to_string(tree.root.join("calls")).unwrap(), "check choose replay choose_csv\n");
    tree.call(&["examples/overload.sheet"]).is(1, &stored("overload.choose"), "the second call").says_lines(0);
    tree.call(&["--replay"]).is(0, &example("replay"), "the third call").says_lines(1);
    tree.call(&["examples/overload.csv"]).is(1, &stored("overload.choose"), "the fourth call, a text").says_lines(0);
    assert_eq!(tree.calls(), 1, "a later call asked rt");
    let bare = Tree { root: tree.root.clone(), path: path_without_rt(&tree) };
    for file in ["examples/overload.sheet", "examples/overload.csv"] {
        bare.call(&[file]).is(1, &stored("overload.choose"), "without rt").says_lines(0);
    }
}

/// A source that changes, comes or goes has the programs proved again, whatever its time is; a new time alone has not.
fn freshness() {
    let tree = stub_tree("fresh");
    let mut calls = 0;
    let mut look = |due: bool, why: &str| {
        calls += due as usize;
        tree.call(&[]).is(0, &example("choose"), why);
        assert_eq!(tree.calls(), calls, "{why}");
    };
    look(true, "nothing is built");
    look(false, "nothing changed");
    let source = tree.root.join("crates/model/specs/Gap.antt");
    let old = fs::metadata(&source).unwrap().modified().unwrap() - Duration::from_secs(1_000_000);
    tree.write("crates/model/specs/Gap.antt", "gap\n");
    look(false, "the same bytes with a new time");
    tree.write("crates/model/specs/Gap.antt", "gaps\n");
    look(true, "a source changed");
    tree.write("crates/model/specs/Gap.antt", "gaq\n");
    File::options().write(true).open(&source).unwrap().set_modified(old).unwrap();
    look(true, "a source changed, with an old time");
    tree.write("crates/model/specs/New.antt", "");
    look(true, "a source came");
    tree.remove("crates/model/specs/New.antt");
    look(true, "a source went");
    let text = fs::read_to_string("crates.txt").unwrap();
    tree.write("crates.txt", &format!("{text}# one line more\n"));
    look(true, "crates.txt changed");
    for program in PROGRAMS {
        tree.remove(&format!("target/built/{program}"));
        look(true, "a program went");
    }
    look(false, "nothing changed");
}

/// Where proving or building fails there is no answer, 3, and the log. Programs of other sources are not used.
fn failures() {
    let tree = stub_tree("fails");
    tree.plan("status=1");
    let said = tree.call(&["examples/folder.sheet"]);
    said.is(3, "", "not proved").says("rt: answers NOT PROVED: the goal of line 7").says("ended with status 1");
    tree.plan("");
    tree.call(&["examples/folder.sheet"]).is(0, &stored("folder.choose"), "proved after a failure");
    tree.write("crates/model/specs/Gap.antt", "no gap\n");
    tree.plan("status=1");
    tree.call(&["examples/folder.sheet"]).is(3, "", "not proved any more").says("NOT PROVED");
    tree.plan("spoil=crates/model/specs/Gap.antt");
    tree.call(&["examples/folder.sheet"]).is(3, "", "sources that change").says("the sources changed");
    tree.plan("silent=yes");
    tree.call(&["examples/folder.sheet"]).is(3, "", "no program").says("cannot copy");
    for text in ["echo task one", "echo task one; echo high", "echo high only", "echo task one; echo high only; echo more"] {
        tree.write("odd", &format!("#!/bin/sh\n{text}\n"));
        tree.write("crates/model/specs/Gap.antt", &format!("{text}\n"));
        tree.plan("program=odd");
        tree.call(&["examples/folder.sheet"]).is(3, "", "an odd program").says("no whole answer");
        tree.call(&["examples/folder.csv"]).is(3, "", "an odd program").says("choose_csv printed no whole answer");
    }
    tree.write("odd", "#!/bin/sh\necho task one\nkill -9 $$\n");
    tree.write("crates/model/specs/Gap.antt", "gap\n");
    tree.call(&["examples/folder.sheet"]).is(3, "", "a program that is killed").says("ended with status 137");
    tree.call(&["examples/folder.csv"]).is(3, "", "a program that is killed").says("choose_csv ended with status 137");

    let tree = stub_tree("none");
    let bare = Tree { root: tree.root.clone(), path: path_without_rt(&tree) };
    bare.call(&["examples/folder.sheet"]).is(3, "", "no rt").says("rt, the command of the Rattle kit, is not on the path").says_lines(1);
    tree.write("target", "");
    tree.call(&["examples/folder.sheet"]).is(3, "", "no place to write").says("cannot write").says_lines(1);
    tree.remove("target");
    if unsafe { geteuid() } != 0 {
        fs::create_dir(tree.root.join("target")).unwrap();
        fs::set_permissions(tree.root.join("target"), fs::Permissions::from_mode(0o555)).unwrap();
        tree.call(&["examples/folder.sheet"]).is(3, "", "another user's folder").says("cannot write").says_lines(1);
    }
}

/// Calls at the same time: one proves, the others wait for it, all answer.
fn at_once() {
    let tree = stub_tree("at_once");
    tree.plan("wait=$(sed -n 2p order)");
    let children: Vec<Child> = (0..4).map(|_| tree.command("run", &["examples/folder.sheet"]).spawn().unwrap()).collect();
    let start = Instant::now();
    while !tree.exists("waiting") && start.elapsed() < PATIENCE {
        std::thread::sleep(Duration::from_millis(2));
    }
    tree.write("go", "");
    for child in children {
        finish(child, "one of four calls").is(0, &stored("folder.choose"), "four calls at once");
    }
    assert_eq!(tree.calls(), 1, "four calls at once asked rt more than once");
}

/// A call that is ended while it proves leaves no lock and no proving behind.
fn interrupted() {
    let tree = stub_tree("interrupted");
    let waiting = |child: &mut Child| {
        let start = Instant::now();
        while !tree.exists("waiting") {
            assert!(start.elapsed() < PATIENCE && child.try_wait().unwrap().is_none(), "the proving does not begin");
            std::thread::sleep(Duration::from_millis(2));
        }
        tree.remove("waiting");
    };
    tree.plan("wait=$(sed -n 2p order)");
    let (mut child, mut keyboard) = at_terminal(&tree, &[]);
    waiting(&mut child);
    keyboard.write_all(b"\x03").unwrap();
    let said = finish(child, "an interrupt at the terminal");
    assert!((said.code() == 130 || said.status.signal() == Some(INT)) && said.out.is_empty(), "{:?}", said.status);
    for (signal, code) in [(TERM, 143), (INT, 130)] {
        let mut child = tree.command("run", &[]).spawn().unwrap();
        waiting(&mut child);
        assert_eq!(unsafe { kill(child.id() as i32, signal) }, 0);
        let status = ended(&mut child, "a call that was ended");
        assert_eq!(status.code(), Some(code), "ended by signal {signal}");
    }
    // Nobody reads its standard error any more.
    let mut child = tree.command("run", &[]).spawn().unwrap();
    waiting(&mut child);
    drop(child.stderr.take());
    tree.write("go", "");
    let status = ended(&mut child, "a call whose standard error is closed");
    assert!(status.code() == Some(141) || status.signal() == Some(PIPE), "{status:?}");
    tree.remove("go");
    // Nothing can end the proving with a call that is killed; the next call waits for what is left of it.
    let mut child = tree.command("run", &[]).spawn().unwrap();
    waiting(&mut child);
    child.kill().unwrap();
    tree.write("go", "");
    assert_eq!(ended(&mut child, "a call that was killed").signal(), Some(KILL));
    let begun = tree.calls();
    tree.plan("");
    tree.call(&[]).is(0, &example("choose"), "after calls that were ended").says_not("two at once");
    assert_eq!(tree.calls(), begun + 1);
    for left in ["target/built/pipe", "target/built/new", "busy"] {
        assert!(!tree.exists(left), "{left} is left");
    }
}

/// An output that takes nothing: no answer.
fn lost_output(tree: &Tree) {
    let mut c = tree.command("run", &[]);
    c.stdout(OpenOptions::new().write(true).open("/dev/full").unwrap());
    finish(c.spawn().unwrap(), "./run >/dev/full").is(3, "", "a full disk").says("could not be written");
    let mut child = tree.command("run", &[]).spawn().unwrap();
    drop(child.stdout.take());
    let status = ended(&mut child, "./run on a closed pipe");
    assert!(status.signal() == Some(PIPE) || status.code() == Some(3), "{status:?}");
    tree.call(&[]).is(0, &example("choose"), "after a closed pipe");
}

fn mode(path: &Path) -> u32 {
    fs::metadata(path).unwrap().permissions().mode() & 0o777
}

fn install() {
    let tree = stub_tree("install");
    let stage = tree.root.join("stage");
    let call = |words: &[&str], prefix: Option<&str>, dest: Option<&str>| {
        let mut c = tree.command("install", words);
        prefix.map(|p| c.env("PREFIX", p));
        dest.map(|d| c.env("DESTDIR", d));
        finish(c.spawn().unwrap(), "./install")
    };
    call(&["x"], None, None).is(2, "", "an argument").says("usage: ");
    call(&[""], None, None).is(2, "", "an empty argument").says("usage: ");
    call(&[], Some("here"), None).is(2, "", "a relative PREFIX").says("usage: ");
    let said = call(&["--help"], None, None);
    assert!(said.code() == 0 && said.out.contains("usage: ") && said.err.is_empty());
    assert_eq!(tree.calls(), 0);
    tree.plan("status=1");
    call(&[], Some("/opt"), stage.to_str()).is(3, "", "not proved").says("NOT PROVED");
    assert!(!stage.exists());
    tree.plan("");
    let files = [
        ("bin/nolkrada-choose", 0o755), ("bin/nolkrada-replay", 0o755), ("bin/nolkrada-choose-csv", 0o755),
        ("include/nolkrada.h", 0o644), ("lib/libnolkrada.a", 0o644),
    ];
    let said = call(&[], Some("/opt"), stage.to_str());
    let lines: String = files.iter().map(|(f, _)| format!("installed {}/opt/{f}\n", stage.display())).collect();
    said.is(0, &lines, "install");
    for (file, bits) in files {
        assert_eq!(mode(&stage.join("opt").join(file)), bits, "{file}");
    }
    let calls = tree.calls();
    let direct = tree.root.join("direct");
    assert_eq!(call(&[], direct.to_str(), None).code(), 0);
    assert_eq!(tree.calls(), calls, "what is built was proved again");
    for (file, _) in files {
        assert_eq!(fs::read(direct.join(file)).unwrap(), fs::read(stage.join("opt").join(file)).unwrap(), "{file}");
    }
    for (program, input, output) in [
        ("choose", "folder.sheet", "folder.choose"), ("replay", "folder.sheet", "folder.replay"), ("choose-csv", "folder.csv", "folder.choose"),
    ] {
        let mut c = Command::new(direct.join(format!("bin/nolkrada-{program}")));
        c.stdin(File::open(format!("examples/{input}")).unwrap()).stdout(Stdio::piped());
        finish(c.spawn().unwrap(), "the installed program").is(0, &stored(output), "the installed program");
    }
    call(&[], tree.root.join("run").to_str(), None).is(3, "", "no place to write").says("cannot write");
}

fn main() {
    // A shell ignores interrupts in what it starts in the background, and what is ignored cannot be trapped by a call of ./run.
    const DEFAULT: usize = 0;
    unsafe { signal(INT, DEFAULT) };
    let path = std::env::var("PATH").unwrap();
    let real = Tree { root: std::env::current_dir().unwrap(), path };
    inputs(&real);
    texts(&real);
    lost_output(&real);
    let tree = stub_tree("names");
    assert_eq!(tree.call(&[]).code(), 0);
    names(&tree);
    wrong_calls(&tree);
    first_call();
    freshness();
    failures();
    at_once();
    interrupted();
    install();
    let _ = fs::remove_dir_all("target/programs/trees");
    println!("commands: ./run and ./install answer, refuse and fail as their usage says");
}
