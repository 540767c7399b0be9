//! The programs over texts: each status, an output that is longer than its text, and a text that is too long.
use ertime::text::{Answer, Status, TextError, judge, run};

fn told(status: Status, output: &str, errors: &str) -> Answer {
    Answer { status, output: output.to_string(), errors: errors.to_string() }
}

#[test]
fn of_scenarios() {
    let long = format!(r#"{{"format":1,"first":[0,0],"ops":[{}["time"]]}}"#, r#"["turn",0],"#.repeat(10_000));
    assert_eq!(
        run(long.as_bytes()),
        Ok(told(Status::Done, &format!("{}time 0\nend 0\n", "turn 0 0 0 0 0\n".repeat(10_000)), ""))
    );
    assert_eq!(run(b""), Ok(told(Status::Refused, "refused json\n", "scenario:1:1: expected a value here\n")));
    assert_eq!(run(&vec![b' '; 16_777_217]), Err(TextError::TooLong));
}

#[test]
fn of_histories() {
    let settings = "settings no false 0 1 1 1 1 0 0\n";
    let tick = "k c0 tick -1 0 plain 0";
    assert_eq!(judge(settings.as_bytes()), Ok(told(Status::Done, "legal 0\n", "")));
    assert_eq!(
        judge(format!("{settings}{tick}\n").as_bytes()),
        Ok(told(Status::Illegal, "illegal 2\n", &format!("history:2: {tick}: its reading isn't valid\n")))
    );
}
