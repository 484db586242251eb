//! The sample of the format, and every fault that a campaign text can have.

use reference::campaign;

const SAMPLE: &str = "bench=1
n=4
t=1
marks=3
carriage=echo
kind=notice
values=2
v=F,5,0
v=F,9,0
begin=0,F,5,17
turn=1
turn=2
turn=3
turn=4
close=1
begin=3,-
inject=3,0,i,3,1,0
inject=3,1,i,3,1,1
inject=3,2,i,3,1,1
inject=1,2,e,3,1,0
turn=1
inject=3,0,e,3,1,1
turn=2
turn=3
turn=4
close=2
";

const HEADER: [&str; 9] =
    ["bench=1", "n=4", "t=1", "marks=3", "carriage=seal", "kind=notice", "values=2", "v=F,5,0", "v=F,9,0"];

fn lines(lines: &[&str]) -> String {
    lines.iter().map(|line| format!("{line}\n")).collect()
}

fn header() -> String {
    lines(&HEADER)
}

/// The header with one line replaced, and the refusal that it is to meet.
fn header_with(number: usize, line: &str, refusal: &str) {
    let mut changed = HEADER;
    changed[number - 1] = line;
    let report = campaign(lines(&changed).as_bytes());
    assert_eq!(report, format!("refused={refusal}\nend=0,0\n"), "line {number}: {line}");
}

/// The reports of acts after a good header, which has nine lines.
fn acts(text: &str) -> String {
    campaign(format!("{}{text}", header()).as_bytes())
}

fn refused_act(taken: &str, line: &str, refusal: &str) {
    let count = taken.lines().count();
    let report = acts(&format!("{taken}{line}\n"));
    assert_eq!(report, format!("refused={},{refusal}\nout=-\nend={count},1\n", 10 + count), "{line}");
}

#[test]
fn the_sample_prints_its_five_lines() {
    let report = "shot=1,0,0\nrefused=20,carriage,14\nshot=2,3,1\nout=-\nend=16,1\n";
    assert_eq!(campaign(SAMPLE.as_bytes()), report);
}

#[test]
fn a_header_alone_is_a_campaign() {
    assert_eq!(campaign(header().as_bytes()), "out=-\nend=0,0\n");
}

#[test]
fn fault_1_in_the_header() {
    assert_eq!(campaign(b""), "refused=1,text,1\nend=0,0\n");
    assert_eq!(campaign(b"bench=1\nn=4\n"), "refused=3,text,1\nend=0,0\n");
    assert_eq!(campaign(b"bench=1\nn=4"), "refused=2,text,1\nend=0,0\n");
    assert_eq!(campaign(header().trim_end().as_bytes()), "refused=9,text,1\nend=0,0\n");
    header_with(2, &"n".repeat(65), "2,text,1");
    header_with(2, &"n".repeat(64), "2,text,2");
    let marks = "marks=0,1,2,3,4,5,6,7,8,9,10,11,12,13,14,15,20,30,40,50,60,70,80";
    assert_eq!(marks.len(), 64);
    header_with(4, marks, "4,value,3");
    header_with(4, &format!("{marks}0"), "4,text,1");
}

#[test]
fn fault_2_in_the_header() {
    for (number, line) in [
        (1, "bench=2"),
        (1, "bench=01"),
        (1, "n=4"),
        (1, ""),
        (2, "n="),
        (2, "n=04"),
        (2, "n=+4"),
        (2, "n=-4"),
        (2, "n=65536"),
        (2, "n=4\r"),
        (3, "t=x"),
        (3, "t=1 "),
        (4, "marks="),
        (4, "marks=3,"),
        (4, "marks=2,1"),
        (4, "marks=1,1"),
        (4, "marks=20,16"),
        (4, "marks=-,1"),
        (5, "carriage=Echo"),
        (5, "carriage="),
        (6, "kind=echo"),
        (7, "values=02"),
        (7, "values=-"),
        (8, "v=5,8"),
        (8, "v=f,5,0"),
        (8, "v=F,5"),
        (8, "v=F,5,0,0"),
        (8, "v=F,64,65536"),
        (9, "begin=0,-"),
        (9, "v=F,9,\u{0}"),
    ] {
        header_with(number, line, &format!("{number},text,2"));
    }
}

#[test]
fn faults_3_to_8_in_the_header() {
    header_with(4, "marks=16", "4,value,3");
    header_with(4, "marks=3,65535", "4,value,3");
    header_with(7, "values=0", "7,value,3");
    header_with(7, "values=5", "7,value,3");
    header_with(8, "v=F,64,0", "8,value,3");
    header_with(2, "n=0", "4,group,4");
    header_with(2, "n=17", "4,group,4");
    header_with(2, "n=3", "4,group,5");
    header_with(3, "t=2", "4,group,5");
    header_with(3, "t=21846", "4,group,5");
    header_with(4, "marks=4", "4,group,6");
    header_with(4, "marks=0,1", "4,group,6");
    header_with(9, "v=F,5,77", "9,list,8");
}

#[test]
fn the_first_cause_of_a_group_is_named() {
    let text = |n: u32, t: u32, marks: &str| lines(&["bench=1", &format!("n={n}"), &format!("t={t}"), marks]);
    let first = |text: String| campaign(text.as_bytes()).lines().next().map(str::to_string);
    assert_eq!(first(text(17, 9, "marks=16")).as_deref(), Some("refused=4,value,3"));
    assert_eq!(first(text(17, 9, "marks=15")).as_deref(), Some("refused=4,group,4"));
    assert_eq!(first(text(6, 2, "marks=15")).as_deref(), Some("refused=4,group,5"));
    assert_eq!(first(text(7, 2, "marks=7")).as_deref(), Some("refused=4,group,6"));
    assert_eq!(first(text(7, 2, "marks=6")).as_deref(), Some("refused=5,text,1"));
}

#[test]
fn pulse_reports_have_their_ranges() {
    let report = |value: &str| {
        let text = ["bench=1", "n=1", "t=0", "marks=-", "carriage=echo", "kind=pulse", "values=1", value];
        campaign(lines(&text).as_bytes())
    };
    for value in ["v=64,8", "v=5,0", "v=5,9", "v=65535,65535"] {
        assert_eq!(report(value), "refused=8,value,3\nend=0,0\n", "{value}");
    }
    for value in ["v=F,5,0", "v=64,09", "v=5", "v=5,8,", "v=64,65536"] {
        assert_eq!(report(value), "refused=8,text,2\nend=0,0\n", "{value}");
    }
    assert_eq!(report("v=63,8"), "out=-\nend=0,0\n");
}

#[test]
fn faults_1_to_3_among_the_acts() {
    refused_act("", &"x".repeat(65), "text,1");
    refused_act("", &"x".repeat(64), "text,2");
    assert_eq!(acts("begin=0,-"), "refused=10,text,1\nout=-\nend=0,1\n");
    for line in ["", "turn", "turn=01", "v=F,5,0", "begin=0,5,8", "begin=0", "begin=65536,-", "begin=0,F,64,65536"] {
        refused_act("", line, "text,2");
    }
    for line in ["inject=3,0,x,3,1,0", "inject=3,0,s,3,1", "inject=3,0,s,3,1,0,0", "close=1,1", "begin=0,F,5,0\r"] {
        refused_act("begin=0,-\n", line, "text,2");
    }
    refused_act("", "begin=0,F,64,0", "value,3");
    refused_act("begin=0,-\n", "begin=9,P,65535,0", "value,3");
}

#[test]
fn faults_9_to_12_of_the_bench() {
    for line in ["inject=3,0,s,3,1,0", "turn=1", "close=1", "close=0"] {
        refused_act("", line, "bench,9");
    }
    for line in ["begin=9,-", "begin=1,-", "turn=2", "turn=0", "close=1"] {
        refused_act("begin=0,-\n", line, "bench,9");
    }
    for line in ["begin=0,-", "inject=0,0,i,9,9,9", "turn=4", "turn=5", "close=2", "close=0", "close=65535"] {
        refused_act("begin=0,-\nturn=1\nturn=2\nturn=3\nturn=4\n", line, "bench,9");
    }
    refused_act("", "begin=4,F,6,0", "bench,10");
    refused_act("", "begin=65535,-", "bench,10");
    refused_act("", "begin=3,F,6,0", "bench,11");
    refused_act("", "begin=0,P,5,0", "bench,12");
}

#[test]
fn faults_14_to_18_of_the_carriage() {
    for (frame, number) in [
        ("0,3,i,9,9,9", 14),
        ("4,3,i,9,9,9", 14),
        ("65535,0,s,0,1,0", 14),
        ("3,3,i,9,9,9", 15),
        ("3,4,i,9,9,9", 15),
        ("3,0,i,9,9,9", 16),
        ("3,0,e,3,1,0", 16),
        ("3,0,s,4,1,0", 17),
        ("3,0,s,3,0,0", 17),
        ("3,0,s,3,3,0", 17),
        ("3,0,s,3,1,2", 17),
        ("3,0,s,0,1,65535", 17),
        ("3,0,s,0,1,0", 18),
        ("3,0,s,1,2,1", 18),
    ] {
        refused_act("begin=0,-\n", &format!("inject={frame}"), &format!("carriage,{number}"));
    }
    assert_eq!(acts("begin=0,F,5,0\ninject=3,1,s,0,1,0\n"), "out=-\nend=2,0\n");
    let echo = campaign(SAMPLE.replace("inject=1,2,e,3,1,0", "inject=3,2,s,3,1,0").as_bytes());
    assert!(echo.contains("refused=20,carriage,16\n"));
}

#[test]
fn a_block_is_out_at_the_third_charge() {
    let shot = |number: u32, value: &str| format!("begin=1,{value}\nturn=1\nturn=2\nturn=3\nturn=4\nclose={number}\n");
    let two = format!("{}{}{}", shot(1, "F,9,1"), shot(2, "F,5,2"), shot(3, "F,9,3"));
    let three = format!("{two}{}{}{}", shot(4, "F,9,4"), shot(5, "F,5,5"), shot(6, "F,5,6"));
    assert_eq!(acts(&two), "shot=1,1,1\nshot=2,1,0\nshot=3,1,1\nout=-\nend=18,0\n");
    assert!(acts(&three).ends_with("shot=6,1,0\nout=5,9\nend=36,0\n"));
    let fourth = format!("{three}{}", shot(7, "F,9,0"));
    assert!(acts(&fourth).ends_with("shot=7,1,1\nout=5,9\nend=42,0\n"));
}

#[test]
fn no_more_than_the_first_bytes_are_read() {
    let read = |end: usize| {
        let mut text = header().into_bytes();
        text.resize(end - 1, b'\n');
        text.push(b'x');
        text.extend_from_slice(b"\nbegin=0,-\n");
        campaign(&text)
    };
    let last = |report: String| report.lines().rev().nth(2).map(|line| line.rsplit(',').next().map(str::to_string));
    assert_eq!(last(read(32_767)), Some(Some("2".to_string())));
    assert_eq!(last(read(32_768)), Some(Some("1".to_string())));
    assert!(read(32_769).ends_with(&format!("end=0,{}\n", 32_768 - header().len())));
}
