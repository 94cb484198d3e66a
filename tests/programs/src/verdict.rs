//! What a run of the program should give, and how a difference is told.

use crate::program::Ran;

/// Nothing, or what differs first.
pub fn judge(expected: &str, ran: &Ran) -> Result<(), String> {
    judge_printed(expected, ran)?;
    if !ran.stderr.is_empty() {
        let text = String::from_utf8_lossy(&ran.stderr);
        return Err(format!("wrote to standard error: {text:?}"));
    }
    Ok(())
}

/// The same of a run that should print nothing, and should say why on standard error.
pub fn judge_complaint(ran: &Ran) -> Result<(), String> {
    judge_printed("", ran)?;
    match ran.stderr.is_empty() {
        true => Err("wrote nothing to standard error".to_string()),
        false => Ok(()),
    }
}

/// Of standard output and status.
fn judge_printed(expected: &str, ran: &Ran) -> Result<(), String> {
    if expected.as_bytes() != ran.stdout {
        return Err(first_line(expected, &ran.stdout));
    }
    if !ran.status.success() {
        return Err(format!("ended with {}", ran.status));
    }
    Ok(())
}

fn first_line(expected: &str, found: &[u8]) -> String {
    let found = String::from_utf8_lossy(found);
    let mut ours = expected.split_inclusive('\n');
    let mut theirs = found.split_inclusive('\n');
    let mut line = 1;
    loop {
        let (a, b) = (ours.next(), theirs.next());
        if a != b || a.is_none() {
            let or_end = |text: Option<&str>| text.map_or("nothing".into(), |t| format!("{t:?}"));
            return format!("line {line}: expected {}, found {}", or_end(a), or_end(b));
        }
        line += 1;
    }
}

#[cfg(test)]
mod tests {
    use super::*;
    use std::os::unix::process::ExitStatusExt;
    use std::process::ExitStatus;

    fn ran(stdout: &str, stderr: &str, status: i32) -> Ran {
        Ran {
            stdout: stdout.into(),
            stderr: stderr.into(),
            status: ExitStatus::from_raw(status),
        }
    }

    #[test]
    fn the_same_is_passed() {
        assert_eq!(judge("short\n", &ran("short\n", "", 0)), Ok(()));
    }

    #[test]
    fn the_first_line_that_differs_is_told() {
        let told = judge(
            "1 0 3 0 32\nend 1 0\n",
            &ran("1 0 3 0 32\ncut 1 0\n", "", 0),
        );
        let line = r#"line 2: expected "end 1 0\n", found "cut 1 0\n""#;
        assert_eq!(told, Err(line.to_string()));
    }

    #[test]
    fn a_line_too_few_or_too_many_is_told() {
        let few = judge("short\n", &ran("", "", 0));
        assert_eq!(
            few,
            Err(r#"line 1: expected "short\n", found nothing"#.into())
        );
        let many = judge("short\n", &ran("short\n\n", "", 0));
        assert_eq!(many, Err(r#"line 2: expected nothing, found "\n""#.into()));
        let newline = judge("short\n", &ran("short", "", 0));
        let line = r#"line 1: expected "short\n", found "short""#;
        assert_eq!(newline, Err(line.to_string()));
    }

    #[test]
    fn status_and_standard_error_are_told() {
        assert!(judge("short\n", &ran("short\n", "", 256)).is_err());
        assert!(judge("short\n", &ran("short\n", "", 9)).is_err());
        assert!(judge("short\n", &ran("short\n", "?", 0)).is_err());
    }

    #[test]
    fn a_complaint_stands_on_standard_error_alone() {
        assert_eq!(judge_complaint(&ran("", "usage\n", 0)), Ok(()));
        assert!(judge_complaint(&ran("", "", 0)).is_err());
        assert!(judge_complaint(&ran("usage\n", "usage\n", 0)).is_err());
        assert!(judge_complaint(&ran("", "usage\n", 256)).is_err());
    }
}
