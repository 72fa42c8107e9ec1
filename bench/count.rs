//! Instructions of one call, which no other load moves. The driver starts itself in valgrind's callgrind, goes through the same
//! rows there, and makes each call once warm and once counted.
use std::collections::HashMap;
use std::env::current_exe;
use std::ffi::CString;
use std::fs;
use std::io::ErrorKind;
use std::os::raw::c_char;
use std::process::Command;

extern "C" {
    fn count_built() -> i32;
    fn count_start();
    fn count_stop(name: *const c_char);
}

/// Instructions of the keeper's call and the other's, by a row's key.
pub type Counts = HashMap<String, (u64, u64)>;

/// The child's part: counts the two calls of a row, warm by now, under the row's number.
pub fn pair(row: usize, one: &mut impl FnMut(), two: &mut impl FnMut()) {
    counted(&format!("{row} one"), one);
    counted(&format!("{row} two"), two);
}

fn counted(name: &str, call: &mut impl FnMut()) {
    let name = CString::new(name).unwrap();
    unsafe { count_start() };
    call();
    unsafe { count_stop(name.as_ptr()) };
}

/// The counts of all rows, or why there are none. The child gets these words, and says a row's key on each line.
pub fn rows(words: &[&str]) -> Result<Counts, String> {
    if unsafe { count_built() } == 0 {
        return Err("valgrind's header is not there".to_string());
    }
    let driver = current_exe().unwrap();
    let dumps = driver.with_file_name("callgrind.out");
    let _ = fs::remove_file(&dumps);
    let mut child = Command::new("valgrind");
    // A step of a repeated instruction counts as one, and so would each byte that memcpy copies by one.
    child.env("GLIBC_TUNABLES", "glibc.cpu.x86_rep_movsb_threshold=1000000:glibc.cpu.x86_rep_stosb_threshold=1000000");
    child.args(["--tool=callgrind", "--instr-atstart=no", "--combine-dumps=yes"]);
    child.arg(format!("--callgrind-out-file={}", dumps.display())).arg(driver).args(words);
    let out = child.output().map_err(|e| match e.kind() {
        ErrorKind::NotFound => "valgrind is not there".to_string(),
        _ => format!("valgrind does not start: {e}"),
    })?;
    if !out.status.success() {
        return Err(format!("valgrind fails:\n{}", String::from_utf8_lossy(&out.stderr)));
    }
    let found = calls(&fs::read_to_string(&dumps).map_err(|e| format!("no counts: {e}"))?);
    let mut counts = Counts::new();
    for (row, key) in String::from_utf8_lossy(&out.stdout).lines().enumerate() {
        let count = |side: &str| found.get(&format!("{row} {side}")).copied();
        let both = count("one").zip(count("two")).ok_or(format!("no counts of {key}"))?;
        if counts.insert(key.to_string(), both).is_some() {
            return Err(format!("two rows are called {key}"));
        }
    }
    Ok(counts)
}

/// Of each dump, by its name: the instructions of the call that the driver made, without the driver's own and with those of what
/// it calls. In a dump a line `calls=` stands below its caller's `fn=` and after the called `cfn=`; the next has its cost.
fn calls(dumps: &str) -> HashMap<String, u64> {
    let mut names: HashMap<&str, &str> = HashMap::new();
    let mut found = HashMap::new();
    let (mut dump, mut caller, mut called, mut cost_next) = ("", "", "", false);
    for line in dumps.lines() {
        if let Some(name) = line.strip_prefix("desc: Trigger: Client Request: ") {
            dump = name;
        } else if let Some(name) = line.strip_prefix("fn=") {
            caller = full(name, &mut names);
        } else if let Some(name) = line.strip_prefix("cfn=") {
            called = full(name, &mut names);
        } else if line.starts_with("calls=") {
            cost_next = true;
        } else if cost_next {
            cost_next = false;
            if timed(called) && !timed(caller) {
                let cost: u64 = line.split(' ').nth(1).and_then(|n| n.parse().ok()).expect("a cost");
                *found.entry(dump.to_string()).or_insert(0) += cost;
            }
        }
    }
    found
}

/// Where a name stands the first time it has a number before it, `(12) keeper_check`, which then stands for it.
fn full<'a>(name: &'a str, names: &mut HashMap<&'a str, &'a str>) -> &'a str {
    match name.split_once(' ') {
        Some((number, name)) => {
            names.insert(number, name);
            name
        }
        None => names.get(name).copied().unwrap_or(name),
    }
}

/// Whether this is a function of one of the two sides.
fn timed(function: &str) -> bool {
    ["keeper_", "plain_", "book_hash"].iter().any(|start| function.starts_with(start))
}
