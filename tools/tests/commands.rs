//! The program as people call it: what it writes, what it says, how it ends.
use std::fs;
use std::io::Write;
use std::path::{Path, PathBuf};
use std::process::{Command, Output, Stdio};

fn okrozumba(words: &[&str], input: &[u8]) -> Output {
    let mut program = Command::new(env!("CARGO_BIN_EXE_okrozumba"))
        .args(words)
        .stdin(Stdio::piped())
        .stdout(Stdio::piped())
        .stderr(Stdio::piped())
        .spawn()
        .expect("the program is built");
    let mut pipe = program.stdin.take().expect("its input is a pipe");
    // a program that reads nothing may be gone already
    let _ = pipe.write_all(input);
    drop(pipe);
    program.wait_with_output().expect("it ends")
}

fn example(path: &str) -> PathBuf {
    Path::new(env!("CARGO_MANIFEST_DIR"))
        .join("../examples")
        .join(path)
}

fn said(output: &Output) -> String {
    String::from_utf8_lossy(&output.stderr).into_owned()
}

fn status(output: &Output) -> i32 {
    output.status.code().expect("it was not killed")
}

/// A file of its own for a test, removed first.
fn scratch(name: &str) -> PathBuf {
    let file = Path::new(env!("CARGO_TARGET_TMPDIR")).join(name);
    let _ = fs::remove_file(&file);
    file
}

#[test]
fn list_and_assemble_are_the_identity() {
    for entry in fs::read_dir(example("runs")).expect("there are examples") {
        let path = entry.expect("it can be read").path();
        if !path.extension().is_some_and(|ending| ending == "run") {
            continue;
        }
        let name = path.display().to_string();
        let listed = okrozumba(&["list", &name], &[]);
        let back = okrozumba(&["assemble", "-"], &listed.stdout);
        if name.contains("refused") {
            assert_eq!((status(&listed), status(&back)), (1, 1), "{name}");
            assert!(back.stdout.is_empty(), "{name}");
        } else {
            assert_eq!((status(&listed), status(&back)), (0, 0), "{name}");
            assert_eq!(
                back.stdout,
                fs::read(&path).expect("it can be read"),
                "{name}"
            );
        }
    }
}

#[test]
fn a_refused_run_is_told_as_play_does() {
    let file = example("runs/refused_1_in_an_event.run");
    let listed = okrozumba(&["list", &file.display().to_string()], &[]);
    let text = String::from_utf8_lossy(&listed.stdout).into_owned();
    assert!(text.contains("\n    1  X>sta_tsk(3)"));
    assert!(text
        .lines()
        .last()
        .is_some_and(|line| line.starts_with("refused 1 104 ")));
    let told = format!("{}: refused 1 104: S1, ", file.display());
    assert!(said(&listed).starts_with(&told));
}

#[test]
fn a_text_in_place_of_a_run_is_told() {
    let text = example("text/light_sensor.txt").display().to_string();
    for command in ["list", "picture", "month", "compare"] {
        let output = okrozumba(&[command, &text], &[]);
        assert_eq!(status(&output), 1);
        assert!(said(&output).ends_with(" (a text? okrozumba assemble makes a run of it)\n"));
    }
}

#[test]
fn a_wrong_text_is_told_with_its_place() {
    let text = "priorities 4\ntask 1 priority 2 started\n\tX sta_tks 3\n";
    let wrong = okrozumba(&["assemble", "-"], text.as_bytes());
    assert_eq!(status(&wrong), 1);
    assert!(wrong.stdout.is_empty());
    let lines = said(&wrong);
    let lines: Vec<&str> = lines.lines().collect();
    assert_eq!(
        lines[0],
        "standard input:3:4: no call has the name \"sta_tks\"; is \"sta_tsk\" meant?"
    );
    assert_eq!(lines[2], "    \t  ^^^^^^^");
}

#[test]
fn a_file_stays_as_it_is_when_nothing_comes_out() {
    let file = scratch("kept.run");
    fs::write(&file, "kept").expect("it can be written");
    let name = file.display().to_string();
    assert_eq!(
        status(&okrozumba(&["assemble", "-", "-o", &name], b"tik\n")),
        1
    );
    assert_eq!(fs::read(&file).expect("it is there"), b"kept");
    assert_eq!(
        status(&okrozumba(
            &["assemble", "-", "-o", &name],
            b"priorities 1\ntask 1 priority 1 started\n"
        )),
        0
    );
    assert_eq!(fs::read(&file).expect("it is there").len(), 44);
}

#[test]
fn bad_usage() {
    let run = example("runs/bench_sheet.run").display().to_string();
    let bad: [&[&str]; 11] = [
        &[],
        &["calls", &run],
        &["paint"],
        &["list"],
        &["list", &run, &run],
        &["list", "--fast", &run],
        &["list", "--svg", &run],
        &["picture", &run, "--from"],
        &["picture", &run, "--from", "-1"],
        &["month"],
        &["compare", &run, "-o"],
    ];
    for words in bad {
        let output = okrozumba(words, &[]);
        assert_eq!(status(&output), 2, "{words:?}");
        assert!(
            output.stdout.is_empty() && said(&output).ends_with("try okrozumba --help\n"),
            "{words:?}"
        );
    }
    let calls = okrozumba(&["calls"], &[]);
    assert_eq!(
        (
            status(&calls),
            calls.stdout.iter().filter(|byte| **byte == b'\n').count()
        ),
        (0, 39)
    );
    let help = okrozumba(&["--help"], &[]);
    assert_eq!(status(&help), 0);
    assert!(help.stdout.starts_with(b"okrozumba: "));
}

#[test]
fn bad_inputs_write_nothing() {
    let run = example("runs/bench_sheet.run").display().to_string();
    let refused = example("runs/refused_2_tasks.run").display().to_string();
    let bad: [&[&str]; 5] = [
        &["list", "no such file"],
        &["picture", &refused],
        &["picture", &run, "--from", "3"],
        &["month", &run, "no such file"],
        &["compare", &run],
    ];
    for words in bad {
        let output = okrozumba(words, &[]);
        assert_eq!(status(&output), 1, "{words:?}");
        assert!(
            output.stdout.is_empty() && !output.stderr.is_empty(),
            "{words:?}"
        );
    }
}

#[test]
fn two_runs_are_compared() {
    let run = example("runs/mixed.run").display().to_string();
    let text = String::from_utf8_lossy(&okrozumba(&["list", &run], &[]).stdout).into_owned();
    let changed = text.replace("task 3       priority 1", "task 3       priority 3");
    assert_ne!(changed, text);
    let new = scratch("new.run").display().to_string();
    assert_eq!(
        status(&okrozumba(
            &["assemble", "-", "-o", &new],
            changed.as_bytes()
        )),
        0
    );
    let page = okrozumba(&["compare", &run, &new], &[]);
    assert_eq!(status(&page), 0);
    let page = String::from_utf8_lossy(&page.stdout).into_owned();
    assert!(page.contains(" of 394 events differ"));
    let same = okrozumba(&["compare", &run, &run], &[]);
    assert!(String::from_utf8_lossy(&same.stdout).contains("<p>0 of 394 events differ"));
    let refused = example("runs/refused_2_tasks.run").display().to_string();
    let output = okrozumba(&["compare", &run, &refused], &[]);
    assert_eq!(status(&output), 1);
    assert!(output.stdout.is_empty() && said(&output).contains("refused 2 4"));
}

/// A browser that opens pages without a screen, if there is one.
fn chromium() -> Option<&'static str> {
    let is_there = |name: &&str| Command::new(name).arg("--version").output().is_ok();
    ["chromium", "chromium-browser", "google-chrome"]
        .into_iter()
        .find(is_there)
}

/// A page as the browser has it once its script ran; none where the browser does not run on this machine, or not within a minute.
fn opened(browser: &str, page: &Path, profile: &Path) -> Option<String> {
    let output = Command::new("timeout")
        .args(["60", browser])
        .args([
            "--headless",
            "--no-sandbox",
            "--disable-gpu",
            "--window-size=1400,900",
            "--virtual-time-budget=2000",
        ])
        .arg(format!("--user-data-dir={}", profile.display()))
        .arg("--dump-dom")
        .arg(format!("file://{}", page.display()))
        .output()
        .ok()?;
    let shown = output.status.success() && !output.stdout.is_empty();
    shown.then(|| String::from_utf8_lossy(&output.stdout).into_owned())
}

/// Said past the tests' capture, so that it is seen.
fn say(words: &str) {
    let _ = writeln!(std::io::stderr(), "{words}: the pages were not opened");
}

#[test]
fn pages_open_in_a_browser() {
    let Some(browser) = chromium() else {
        return say("chromium is not on this machine");
    };
    let profile = scratch("profile");
    let page = scratch("alarms.html");
    let name = page.display().to_string();
    let run = example("runs/alarms.run").display().to_string();
    assert_eq!(status(&okrozumba(&["picture", &run, "-o", &name], &[])), 0);
    let Some(shown) = opened(browser, &page, &profile) else {
        return say("chromium does not run on this machine");
    };
    let (_, labels) = shown
        .split_once("id=\"labels\"")
        .expect("the drawing has labels");
    let (labels, _) = labels.split_once("</svg>").expect("the drawing ends");
    // 21 events in words, five of them refused with their code; four ticks; the script wrote them
    assert_eq!(labels.matches("rotate(-45)").count(), 21);
    assert_eq!(labels.matches("class=\"alert\"").count(), 5);
    assert!(labels.contains("X&gt;set_abs(2, 3, 2)  H_USED"));
    assert!(labels.contains(">start<") && labels.contains(">4<"));
}

#[test]
fn the_readme_lists_what_the_program_does() {
    let text = example("text/light_sensor.txt").display().to_string();
    let run = scratch("light_sensor.run").display().to_string();
    assert_eq!(status(&okrozumba(&["assemble", &text, "-o", &run], &[])), 0);
    let listed = okrozumba(&["list", &run], &[]);
    let readme = Path::new(env!("CARGO_MANIFEST_DIR")).join("../README.md");
    let readme = fs::read_to_string(readme).expect("there is a README");
    let events = String::from_utf8_lossy(&listed.stdout).into_owned();
    let is_event = |line: &&str| line.starts_with("   ");
    assert_eq!(events.lines().filter(is_event).count(), 13);
    for line in events.lines().filter(is_event) {
        assert!(readme.contains(&format!("\n    {line}\n")), "{line}");
    }
}
