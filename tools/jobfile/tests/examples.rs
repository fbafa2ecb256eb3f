//! The job files of the examples are what their texts give.

use std::path::Path;

#[test]
fn job_files_are_their_texts() {
    let examples = Path::new(env!("CARGO_MANIFEST_DIR")).join("../../examples");
    let mut count = 0;
    for entry in std::fs::read_dir(&examples).expect("the examples") {
        let path = entry.expect("a file").path();
        if path.extension().is_some_and(|e| e == "txt") {
            let text = std::fs::read_to_string(&path).expect("a text");
            let job = std::fs::read(path.with_extension("job")).expect("a job file");
            assert_eq!(jobfile::job(&text), Ok(job), "{}", path.display());
            count += 1;
        }
    }
    assert!(count > 0);
}

#[test]
fn terms_are_sorted_and_gathered() {
    let text = "dimension 2\nbox -1 1 -1 1\npolynomial\n2 2 0\n1 0 2 # half\n-1 0 0\n1 0 2\n\
                start 0 0 masks 1 side 0\n";
    let job = jobfile::job(text).expect("a job");
    assert_eq!(job.len(), 54);
    assert_eq!(job[24..32], [255, 255, 255, 255, 0, 0, 0, 0]);
    assert_eq!(job[32..40], [2, 0, 0, 0, 0, 2, 0, 0]);
}

#[test]
fn dimension_4_has_three_polynomials_and_four_exponents() {
    let head = "dimension 4\nbox 0 1 0 1 0 1 0 1\n";
    let start = "start 0 0 0 1 masks 1 3 7 side 1\n";
    let polynomials =
        "polynomial\n1 1 0 0 0\n-3 0 0 0 2\npolynomial\n1 0 1 0 0\npolynomial\n5 0 0 1 1\n";
    let job = jobfile::job(&format!("{head}{polynomials}{start}")).expect("a job");
    assert_eq!(job[..4], [1, 4, 5, 0]);
    assert_eq!(job.len(), 24 + 16 + 16 + 8 + 8 + 12);
    assert_eq!(job[40..48], [253, 255, 255, 255, 0, 0, 0, 2]);
    assert_eq!(job[48..56], [1, 0, 0, 0, 1, 0, 0, 0]);
    assert_eq!(job[64..72], [5, 0, 0, 0, 0, 0, 1, 1]);
    assert_eq!(job[72..], [0, 0, 0, 0, 0, 0, 1, 0, 1, 3, 7, 1]);
    let two = polynomials.rsplit_once("polynomial").expect("three").0;
    let fault = jobfile::job(&format!("{head}{two}{start}")).unwrap_err();
    assert_eq!(fault, "dimension 4 has 3 polynomials");
    assert!(jobfile::job(&format!("{head}polynomial\n1 0 0 1\n"))
        .unwrap_err()
        .starts_with("line 4: "));
}

/// Case A with one more line.
fn case_a_with(line: &str) -> Result<Vec<u8>, String> {
    let text = "dimension 2\nbox -1 1 -1 1\npolynomial\n-1 0 0\n2 0 2\n2 2 0\n\
                start 0 0 masks 1 side 0\n";
    jobfile::job(&format!("{text}{line}\n"))
}

#[test]
fn bias_is_byte_3() {
    let unbiased = case_a_with("").expect("a job");
    assert_eq!(unbiased[3], 0);
    for (line, bias) in [("bias 0", 0), ("bias 1", 1), ("bias 255 # the largest", 255)] {
        let mut wanted = unbiased.clone();
        wanted[3] = bias;
        assert_eq!(case_a_with(line), Ok(wanted));
    }
    // It may stand anywhere.
    let body = "box 0 1 0 1\npolynomial\n1 1 0\nstart 0 0 masks 1 side 0\n";
    let job = jobfile::job(&format!("bias 7\ndimension 2\n{body}")).expect("a job");
    assert_eq!(job[..4], [1, 2, 3, 7]);
}

#[test]
fn other_biases_are_turned_down() {
    for (line, fault) in [
        ("bias 256", "256 does not fit its field, 0 to 255"),
        ("bias -1", "-1 does not fit its field, 0 to 255"),
        ("bias x", "'x' is no whole number"),
        ("bias 0.5", "'0.5' is no whole number"),
        ("bias", "'bias' is followed by one number"),
        ("bias 3 4", "'bias' is followed by one number"),
        ("bias = 3", "'bias' is followed by one number"),
    ] {
        assert_eq!(case_a_with(line), Err(format!("line 8: {fault}")));
    }
}

/// Nothing that was written is passed over in silence.
#[test]
fn lines_given_twice_and_words_too_many_are_turned_down() {
    for line in ["dimension 2", "box 0 1 0 1", "start 0 0 masks 2 side 0"] {
        let name = line.split(' ').next().expect("a name");
        assert_eq!(case_a_with(line), Err(format!("line 8: '{name}' is given twice")));
    }
    let fault = "line 9: 'bias' is given twice".to_string();
    assert_eq!(case_a_with("bias 3\nbias 3"), Err(fault));
    let fault = "line 8: 'dimension' is followed by one number".to_string();
    assert_eq!(case_a_with("dimension 2 3"), Err(fault));
}

#[test]
fn faults_name_their_line() {
    for n in [1, 5] {
        let fault = format!("line 1: {n} does not fit its field, 2 to 4");
        assert_eq!(jobfile::job(&format!("dimension {n}")), Err(fault));
    }
    assert_eq!(jobfile::job("box 0 1"), Err("line 1: 'dimension' comes first".to_string()));
    assert!(jobfile::job("dimension 2\nbox 0 1 0").unwrap_err().starts_with("line 2: "));
    assert!(jobfile::job("dimension 2\npolynomial\n1 0 x").unwrap_err().starts_with("line 3: "));
}
