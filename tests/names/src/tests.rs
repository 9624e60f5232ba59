//! Small repositories in a folder of their own: what is there is found, what is not is told with its line.
use std::fs;
use std::path::PathBuf;

use crate::document::references;
use crate::header;
use crate::lookup::Repository;
use crate::names::check;
use crate::stack::compare;

const HEADER: &str = "/* The calls, by number. */
enum {
    OKROZUMBA_STA_TSK = 1,   /* task */
};
/* An event with a negative code changed nothing. */
enum {
    OKROZUMBA_E_OK = 0,
    OKROZUMBA_E_RLWAI = -3414
};
uint32_t okrozumba_running(const uint32_t words[OKROZUMBA_STATE_WORDS],
                           const uint32_t messages[OKROZUMBA_MESSAGES]);
";

const GOOD: &str = "| Sentence | Where |
|---|---|
| starts | `rules/specs/Tasks.antt:sta_tsk`, `:Task`, `:fast`, `kernel_cells/src/lib.rt:running`, `okrozumba_running` |
| shut out | `rules/always_task_1`, `1 sta_tsk`, `0 E_OK`, `-3414 E_RLWAI` |
";

fn write(root: &PathBuf, file: &str, text: &str) {
    let path = root.join(file);
    fs::create_dir_all(path.parent().unwrap()).unwrap();
    fs::write(path, text).unwrap();
}

/// What is wrong with a repository whose trace is this text.
fn problems(name: &str, trace: &str) -> Vec<String> {
    let root = std::env::temp_dir().join(format!("okrozumba_names_{}_{name}", std::process::id()));
    write(
        &root,
        "README.md",
        "| `kernel_cells::running` | `okrozumba_running` |\n",
    );
    write(&root, "include/okrozumba.h", HEADER);
    write(&root, "crates/rules/src/lib.rt", "// no code\n");
    let tasks = "pub record Task : Type 0 where\n  slow fast : Task\n-- sta_gone : no\nunfoldable pub sta_tsk : Task\nsta_tsk = use_gone\n";
    write(&root, "crates/rules/specs/Tasks.antt", tasks);
    write(
        &root,
        "crates/rules/must-fail/always_task_1.edit",
        "file: specs/Tasks.antt\n",
    );
    write(
        &root,
        "crates/kernel_cells/src/lib.rt",
        "pub fn running(words: &[u32; 4]) -> u32\nfn hidden() -> u32\n",
    );
    write(&root, "docs/TRACE.md", trace);
    write(&root, "docs/AUDIT.md", "- `rules`, `sta_tsk`\n");
    write(&root, "docs/BELIEVE.md", "- `rules/specs`\n");
    let report = check(&Repository::at(&root));
    fs::remove_dir_all(&root).unwrap();
    report.problems.iter().map(|p| p.to_string()).collect()
}

#[test]
fn all_is_found() {
    assert_eq!(problems("good", GOOD), Vec::<String>::new());
}

#[test]
fn a_name_that_is_not_declared() {
    for bad in ["sta_gone", "use_gone", "sta-tsk"] {
        let told = problems(
            "undeclared",
            &format!("{GOOD}| x | `rules/specs/Tasks.antt:{bad}` |\n"),
        );
        let place = format!("docs/TRACE.md:5: `rules/specs/Tasks.antt:{bad}`: crates/rules/specs/Tasks.antt declares no {bad}");
        assert_eq!(told, [place]);
    }
}

#[test]
fn a_file_a_crate_a_word_that_is_not_there() {
    for bad in [
        "rules/specs/Task.antt:Task",
        "rule/specs/Tasks.antt:Task",
        "rules/specs/Task.antt",
        "sta_gone",
        "rules::start",
    ] {
        let told = problems("gone", &format!("{GOOD}\nSee `{bad}`.\n"));
        assert_eq!(told.len(), 1, "{told:?}");
        assert!(
            told[0].starts_with(&format!("docs/TRACE.md:6: `{bad}`: ")),
            "{told:?}"
        );
    }
}

#[test]
fn what_was_moved_is_told_with_its_place() {
    let told = problems(
        "moved",
        &format!("{GOOD}| x | `rules/proofs/Tasks.antt:sta_tsk` |\n"),
    );
    assert!(told[0].ends_with("there is no file crates/rules/proofs/Tasks.antt; it is in crates/rules/specs/Tasks.antt"), "{told:?}");
}

#[test]
fn a_call_a_code_an_export_an_edit_that_is_not_there() {
    for bad in [
        "2 sta_tsk",
        "-3413 E_RLWAI",
        "okrozumba_walking",
        "rules/always_task_2",
    ] {
        let told = problems("wrong", &format!("{GOOD}| x | `{bad}` |\n"));
        assert_eq!(told.len(), 1, "{told:?}");
        assert!(
            told[0].starts_with(&format!("docs/TRACE.md:5: `{bad}`: ")),
            "{told:?}"
        );
    }
}

#[test]
fn what_no_row_names() {
    for (left_out, place) in [
        (
            "`rules/always_task_1`",
            "crates/rules/must-fail/always_task_1.edit:1",
        ),
        ("`1 sta_tsk`", "include/okrozumba.h:3"),
        ("`-3414 E_RLWAI`", "include/okrozumba.h:8"),
        ("`okrozumba_running`", "include/okrozumba.h:10"),
        (
            "`kernel_cells/src/lib.rt:running`",
            "crates/kernel_cells/src/lib.rt:1",
        ),
    ] {
        // naming it outside the rows is not enough
        let trace = format!("{}\nSee {left_out}.\n", GOOD.replace(left_out, ""));
        let told = problems("missing", &trace);
        assert_eq!(
            told,
            [format!("{place}: no row names {left_out} (docs/TRACE.md)")]
        );
    }
}

#[test]
fn a_span_over_two_lines_and_the_last_file() {
    let found = references("- `a/b.antt:c` and\n  `:d`, `two\n  lines`\n- `:e`\n\n    `code`\n");
    let texts: Vec<_> = found.iter().map(|r| (r.text.as_str(), r.line)).collect();
    assert_eq!(
        texts,
        [
            ("a/b.antt:c", 1),
            ("a/b.antt:d", 2),
            ("two   lines", 2),
            (":e", 4)
        ]
    );
}

const LISTING: &str = "
0000000000000000 <memory::leaf>:
   0:\tsub    $0x10,%rsp
   4:\tadd    $0x10,%rsp
   8:\tret

0000000000000000 <okrozumba_call>:
   0:\tpush   %rbx
   1:\tmov    %rsp,%r11
   d:\tsub    $0x2000,%r11
  14:\tsub    $0x1000,%rsp
  23:\tcmp    %r11,%rsp
  4a:\tcall   4f <okrozumba_call+0x4f>
\t\t\t4b: R_X86_64_PLT32\t.text.memory::leaf-0x4
  5b:\tret
";

#[test]
fn frames_are_added_up_along_the_calls() {
    // a return address, a register, two pages, a return address, 16 bytes
    let takes = 8 + 8 + 0x2000 + 8 + 16;
    let told = |bound: usize| {
        let (exports, problems) = compare(LISTING, &format!("| `okrozumba_call` | {bound} |\n"));
        assert_eq!(exports, 1);
        problems.iter().map(|p| p.to_string()).collect::<Vec<_>>()
    };
    assert_eq!(told(takes), Vec::<String>::new());
    let short = format!(
        "docs/BELIEVE.md:1: okrozumba_call takes {takes} bytes of the stack, not at most {}",
        takes - 1
    );
    assert_eq!(told(takes - 1), [short]);
}

#[test]
fn an_export_without_a_bound_a_call_by_pointer_and_one_of_itself() {
    assert_eq!(
        compare(LISTING, "| `okrozumba_tick` | 9,999 |\n").1.len(),
        1
    );
    let pointer = LISTING.replace("call   4f <okrozumba_call+0x4f>", "call   *%rax");
    assert_eq!(
        compare(&pointer, "| `okrozumba_call` | 99,999 |\n").1.len(),
        1
    );
    let itself = LISTING.replace(".text.memory::leaf-0x4", "okrozumba_call-0x4");
    assert_eq!(
        compare(&itself, "| `okrozumba_call` | 99,999 |\n").1.len(),
        1
    );
}

#[test]
fn a_number_of_the_header_that_is_not_the_definitions() {
    let root = std::env::temp_dir().join(format!("okrozumba_names_{}_header", std::process::id()));
    write(&root, "include/okrozumba.h", HEADER);
    write(
        &root,
        "crates/rules/specs/Codes.antt",
        "number OK = pos 0\nnumber E-RLWAI = minus 3413\nnumber E-CTX = minus 2629\n",
    );
    write(
        &root,
        "crates/rules/specs/Table.antt",
        "table v me a b c =\n    sta_tsk_row v a\n    ∷ ext_tsk_row v me\n    ∷ []\n",
    );
    let report = header::check(&Repository::at(&root));
    fs::remove_dir_all(&root).unwrap();
    let told: Vec<_> = report
        .problems
        .iter()
        .map(|p| p.to_string())
        .filter(|p| p.contains("rules/specs/Codes") || p.contains("rules/specs/Table"))
        .collect();
    assert_eq!(
        told,
        [
            "include/okrozumba.h:8: OKROZUMBA_E_RLWAI is -3414, and -3413 in rules/specs/Codes.antt",
            "include/okrozumba.h:1: there is no OKROZUMBA_E_CTX, which rules/specs/Codes.antt has",
            "include/okrozumba.h:1: there is no OKROZUMBA_EXT_TSK, which rules/specs/Table.antt has",
        ]
    );
}
