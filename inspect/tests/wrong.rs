//! Wrong builds of the small tree, tried with a prover that answers as the edited line says.

mod common;

use common::Fixture;
use slavotuk_inspect::wrong::{self, Prover};
use std::fs;
use std::os::unix::fs::PermissionsExt;
use std::sync::Mutex;

const SOURCE: &str = "crates/names/src/lib.rt";
const EDIT: &str = "crates/names/must-fail/one_byte.edit";

/// Checks a copy by what stands in it in place of the comparison; where its crate was checked before, that lies beside it. It notes how it was called.
const PROVER: &str = "#!/usr/bin/env bash
refused() {
    echo \"./proofs/same/Answers.antt:3:4: error: $1\"
    echo logic=not-proved
    exit 1
}
echo \"${@:4}\" >>\"${0%/*}/calls\"
grep -q proved \"$3/earlier/names.oantt\" || exit 2
case $(cat \"$2/src/lib.rt\") in
*'a.0 == b.0'*) echo 'logic=proved functions=1' ;;
*FALSE*) refused '`returns`: no proof' ;;
*ELSEWHERE*) refused '`loop-i-init`: no proof' ;;
*UNFIT*) refused '`returns`: `loop` was not admitted' ;;
*) exit 2 ;;
esac
";

/// The small tree; its wrong build puts a text in place of the comparison.
fn tree(name: &str, new: &str) -> Fixture {
    let fixture = Fixture::new(name, EDIT, "new: true", &format!("new: {new}"));
    let root = &fixture.0;
    let kept = root.join("crates/names/out/incremental/earlier");
    fs::create_dir_all(&kept).expect("made");
    fs::write(kept.join("names.oantt"), "proved").expect("written");
    let prover = root.join("prover");
    fs::write(&prover, PROVER).expect("written");
    fs::set_permissions(&prover, fs::Permissions::from_mode(0o755)).expect("may be run");
    fixture
}

/// What came of the only wrong build, and whether it was tried just now.
fn outcome(fixture: &Fixture) -> (wrong::Outcome, bool) {
    let told = Mutex::new(Vec::new());
    let (root, tree) = (&fixture.0, fixture.read().0);
    let prover = Prover {
        path: root.join("prover"),
        version: String::new(),
    };
    wrong::try_all(
        root,
        &tree,
        &prover,
        &["names"],
        &|_, outcome, _, is_new| {
            told.lock().expect("told").push((outcome.clone(), is_new));
        },
    )
    .expect("tried");
    let mut told = told.into_inner().expect("told");
    assert_eq!(told.len(), 1);
    told.remove(0)
}

fn tried(name: &str, new: &str) -> wrong::Outcome {
    let fixture = tree(name, new);
    let source = || fs::read_to_string(fixture.0.join(SOURCE)).expect("read");
    let before = source();
    let outcome = outcome(&fixture).0;
    assert_eq!(before, source());
    let log = "build/must-fail/names/one_byte.log";
    assert!(fixture.0.join(log).is_file());
    outcome
}

fn begins(outcome: wrong::Outcome, words: &str) {
    let why = outcome.expect_err("no refusal at its fact");
    assert!(why.starts_with(words), "{why}");
}

#[test]
fn a_false_fact_is_refused() {
    assert_eq!(
        tried("wrong-false", "FALSE"),
        Ok("proofs/same/Answers.antt:3:4".to_string())
    );
}

#[test]
fn a_harmless_edit_is_told() {
    begins(tried("wrong-harmless", "(a.0 == b.0)"), "NOT REFUSED");
}

#[test]
fn a_refusal_at_another_fact_is_told() {
    begins(
        tried("wrong-elsewhere", "ELSEWHERE"),
        "refused, but not at `returns` of same: at same loop-i-init",
    );
}

#[test]
fn a_proof_that_only_does_not_fit_is_told() {
    begins(
        tried("wrong-unfit", "UNFIT"),
        "the proof alone does not fit it",
    );
}

#[test]
fn a_check_that_ends_otherwise_is_told() {
    begins(tried("wrong-broken", "BROKEN"), "did not reach the prover");
}

#[test]
fn a_text_that_is_not_there_is_told() {
    let fixture = tree("wrong-missing", "FALSE");
    let source = fixture.0.join(SOURCE);
    let text = fs::read_to_string(&source).expect("read");
    fs::write(&source, text.replace("a.0 == b.0", "b.0 == a.0")).expect("written");
    begins(
        outcome(&fixture).0,
        "did not reach the prover: error: `a.0 == b.0` is not in src/lib.rt",
    );
}

#[test]
fn the_whole_crate_is_checked_where_the_function_is_not_refused() {
    let fixture = tree("wrong-whole", "ELSEWHERE");
    begins(outcome(&fixture).0, "refused, but not at");
    let calls = fs::read_to_string(fixture.0.join("calls")).expect("read");
    assert_eq!(calls, "--only same\n\n");
}

#[test]
fn what_was_tried_on_the_same_files_is_not_tried_again() {
    let fixture = tree("wrong-again", "FALSE");
    let is_new = || outcome(&fixture).1;
    assert_eq!([is_new(), is_new()], [true, false]);
    let proof = fixture.0.join("crates/names/proofs/Unique.antt");
    fs::write(proof, "pub same : 1 ≡ 1\nsame = refl\n").expect("written");
    assert_eq!([is_new(), is_new()], [true, false]);
    let calls = fs::read_to_string(fixture.0.join("calls")).expect("read");
    assert_eq!(calls, "--only same\n--only same\n");
}
