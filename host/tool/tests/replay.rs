//! Scripts and their answers, worked by hand from `docs/REPLAY.md` and the rules.

use crustnewt_tool::cores::CORES;
use crustnewt_tool::replay::replay;

/// What a script answers: the same on every core.
fn answers(script: &[u8]) -> String {
    let told = CORES.iter().map(|(_, make)| {
        let mut output = Vec::new();
        replay(&*make(), script, &mut output).unwrap();
        String::from_utf8(output).unwrap()
    });
    let told: Vec<String> = told.collect();
    assert!(told.iter().all(|answers| *answers == told[0]));
    told[0].clone()
}

/// A frame of 60 octets from its first digits.
fn frame(digits: &str) -> String {
    format!("{digits:0<120}")
}

#[test]
fn before_anything_head_and_box_hold_address_zero() {
    let expected = "head 13\n  head 000000000000 count 0 window idle 0 0 links 0\n\
        box 13 drift 0\n  box 000000000000 count 0 wait 0 0 0 port 0 sync 0 light rest 0 grants 0\n\
        next empty\n";
    assert_eq!(
        answers(b"head deregister 1\nbox register\nbox next 60 0\n"),
        expected
    );
}

#[test]
fn unknown_lines_are_told_by_number() {
    let script =
        b"\n# a comment\nfoo\nbox  register\nhead link 1 idle 000000000000 0 0 0\nbox next 1 2001";
    assert_eq!(answers(script), "? 3\n? 4\n? 5\n? 6\n");
    let mut long = b"#".repeat(4097);
    long.extend(b"\n#\nx");
    assert_eq!(answers(&long), "? 1\n? 3\n");
}

#[test]
fn read_tells_each_body() {
    let report = frame("0180c20000010200000000318808000300000005");
    let expected =
        format!("read 1\nread 0 to 0180c2000001 from 020000000031 stamp 5 report frame {report}\n");
    assert_eq!(
        answers(format!("read -\nread {report}\n").as_bytes()),
        expected
    );
    let gate = frame("02000000003102000000000188080002000000052100000007004a");
    assert_eq!(answers(format!("read {gate}").as_bytes()), "read 4\n");
    let gate = frame("02000000003102000000000188080002000000051100000007004a");
    let read = answers(format!("read {gate}").as_bytes());
    assert!(read.contains(" stamp 5 gate 1 7 74 1 frame "), "{read}");
}

/// A REPORT at count 1000 whose body begins with these digits.
fn report(body: &str) -> String {
    frame(&format!("0180c2000001021346578a9b88080003000003e8{body}"))
}

/// Two full sets of length 0.
fn two_full() -> String {
    format!("ff{:032}", 0).repeat(2)
}

#[test]
fn read_tells_the_sets_of_a_report() {
    let zeros = |number| " 0".repeat(number);
    let full = format!(" 255{}", zeros(8)).repeat(2);
    for (body, told) in [
        (
            "02050102030480ffff".to_owned(),
            " 2 5 258 772 128 65535".to_owned(),
        ),
        ("27".to_owned(), format!(" 39{}", zeros(39))),
        (
            format!("0d{}", "010000".repeat(13)),
            format!(" 13{}", " 1 0".repeat(13)),
        ),
        (
            format!("03{}0300000000", two_full()),
            format!(" 3{full} 3 0 0"),
        ),
        (
            format!("05{}0100000000", two_full()),
            format!(" 5{full} 1 0 0 0"),
        ),
        ("00".to_owned(), String::new()),
    ] {
        let frame = report(&body);
        let read = "read 0 to 0180c2000001 from 021346578a9b stamp 1000 report";
        let expected = format!("{read}{told} frame {frame}\n");
        assert_eq!(answers(format!("read {frame}\n").as_bytes()), expected);
    }
}

#[test]
fn sets_that_run_past_the_frame_are_4() {
    for body in [
        "28".to_owned(),
        "ff".to_owned(),
        format!("0e{}", "010000".repeat(13)),
        format!("03{}0700000000", two_full()),
        format!("05{}0100000001", two_full()),
    ] {
        let past = report(&body);
        assert_eq!(answers(format!("read {past}\n").as_bytes()), "read 4\n");
        let told = answers(format!("head hear 3 {past}\nbox hear 0 {past}\n").as_bytes());
        let numbers: Vec<&str> = told.lines().step_by(2).collect();
        assert_eq!(numbers, ["head 4", "box 4 drift 0"]);
    }
}

#[test]
fn the_pad_behind_the_sets_is_written_as_zeros() {
    for (body, told) in [("02050102030480ffff", " 2 5 258 772 128 65535"), ("00", "")] {
        let zeroed = report(body);
        let padded = format!("{}{body:f<80}", &zeroed[..40]);
        let read = answers(format!("read {padded}\n").as_bytes());
        let told = format!(" report{told} frame {zeroed}\n");
        assert!(read.ends_with(&told), "{read}");
    }
}

#[test]
fn a_clients_report_is_told_by_the_head() {
    let before = "head new 3 020000000001\nhead state 020000000001 1500 idle 0 0\n\
        head link 3 registered 021346578a9b 0 9 8\nhead link 2 waiting 020000000032 7 0 0\n\
        box state 021346578a9b 1000 registered 0 40000000 7 3 0\n";
    let sent = report("02050102030480ffff");
    let told = told_after(before, "box report 2 5 258 772 128 65535\n");
    let state = "  box 021346578a9b count 1000 registered 0 40000000 3125000 port 3 sync 0 \
        light rest 0 grants 0\n";
    assert_eq!(told, format!("box 0 drift 0 frame {sent}\n{state}"));
    let links = |watchdog| {
        format!(
            "  head 020000000001 count 1500 window idle 0 0 links 3 idle 000000000000 0 0 0 \
             waiting 020000000032 7 0 0 registered 021346578a9b 0 {watchdog} 8\n"
        )
    };
    let waiting = sent.replace("021346578a9b", "020000000032");
    for (line, answer, watchdog) in [
        (
            format!("3 {sent}"),
            "0 notice report 3 500 2 5 258 772 128 65535",
            62_500_000,
        ),
        (
            format!("3 {}", report("")),
            "0 notice report 3 500",
            62_500_000,
        ),
        (format!("2 {waiting}"), "0", 9),
        (format!("1 {sent}"), "6", 9),
        (format!("0 {sent}"), "6", 9),
        (format!("2 {sent}"), "8", 9),
    ] {
        let told = told_after(before, &format!("head hear {line}\n"));
        assert_eq!(told, format!("head {answer}\n{}", links(watchdog)));
    }
}

#[test]
fn a_report_is_refused_by_13_then_7_then_4() {
    let forty = format!("box report 40{}\n", " 0".repeat(40));
    for (state, number) in [
        ("registered 0 40000000 7 3 0", 4),
        ("wait 0 0 0 3 0", 7),
        ("registering 0 0 0 3 0", 7),
        ("requesting 5 0 0 3 0", 7),
        ("wait 5 0 0 3 0", 13),
        ("registered 0 40000000 0 3 0", 13),
    ] {
        let before = format!("box state 021346578a9b 1000 {state}\n");
        let told = told_after(&before, &forty);
        assert!(
            told.starts_with(&format!("box {number} drift 0\n")),
            "{told}"
        );
    }
}

/// A REPORT to everyone with this source.
fn report_from(source: &str) -> String {
    frame(&format!("0180c2000001{source}880800036c6d6e6f"))
}

#[test]
fn a_frame_of_a_group_or_nobody_is_not_read() {
    for source in ["021346578a9b", "000000000001", "fe0000000000"] {
        let report = report_from(source);
        let told = answers(format!("read {report}\n").as_bytes());
        let read = format!("read 0 to 0180c2000001 from {source} stamp 1819111023 report");
        assert_eq!(told, format!("{read} frame {report}\n"));
    }
    for source in [
        "031346578a9b",
        "000000000000",
        "010000000000",
        "ffffffffffff",
        "0180c2000001",
    ] {
        let told = answers(format!("read {}\n", report_from(source)).as_bytes());
        assert_eq!(told, "read 4\n", "{source}");
    }
    let group = report_from("031346578a9b");
    let opcode = group.replace("88080003", "88080007");
    let kind = group.replace("88080003", "88090003");
    let script = format!("read {opcode}\nread {kind}\nread {}\n", &group[..118]);
    assert_eq!(answers(script.as_bytes()), "read 3\nread 2\nread 1\n");
}

#[test]
fn a_head_and_a_box_hear_no_group_and_nobody() {
    let request = |source| frame(&format!("0180c2000001{source}88080004000000050110"));
    let told = |before: &str, state: &str, source| {
        let before = format!("head new 1 0a1b2c3d4e5f\n{before}");
        let told = told_after(&before, &format!("head hear 0 {}\n", request(source)));
        let stays = format!("  head 0a1b2c3d4e5f {state} links 1 idle 000000000000 0 0 0\n");
        assert_eq!(told, format!("head 4\n{stays}"));
    };
    let inside = "head state 0a1b2c3d4e5f 7 inside 9 0\n";
    told(inside, "count 7 window inside 9 0", "000000000000");
    told(inside, "count 7 window inside 9 0", "031346578a9b");
    // The reader comes before the window.
    told("", "count 0 window idle 0 0", "031346578a9b");

    let gate = frame("021346578a9b031346578a9b880800020000000900");
    let before = "box state 021346578a9b 7 registered 0 100 200 1 10\nbox list 1 500 100\n";
    let stays = "  box 021346578a9b count 7 registered 0 100 200 port 1 sync 10 light rest 0 \
        grants 1 500 100\n";
    let told = told_after(before, &format!("box hear 0 {gate}\n"));
    assert_eq!(told, format!("box 4 drift 0\n{stays}"));
    // And before soundness: this box has no address.
    let told = answers(format!("box hear 0 {gate}\n").as_bytes());
    assert!(told.starts_with("box 4 drift 0\n"), "{told}");
}

#[test]
fn a_fresh_head_and_its_window() {
    let script = b"head new 1 020000000001\nhead open 2 174 0 3\nhead tick 3\nhead tick 0\n";
    let gate = frame("0180c20000010200000000018808000200000000090000000200ae0000");
    let link = "links 1 idle 000000000000 0 0 0";
    let expected = format!(
        "head 0\n  head 020000000001 count 0 window idle 0 0 {link}\n\
         head 0 frame {gate}\n  head 020000000001 count 0 window before 2 3 {link}\n\
         ticked 3\n  head 020000000001 count 3 window inside 2 0 {link}\n\
         ticked 0\n  head 020000000001 count 3 window inside 2 0 {link}\n"
    );
    assert_eq!(answers(script), expected);
}

#[test]
fn a_refused_fresh_head_keeps_its_links() {
    let script = b"head new 1 020000000001\nhead link 1 waiting 020000000031 5 0 0\n\
        head new 2 0180c2000001\nhead new 0 020000000001\n";
    let told = answers(script);
    let zero = "  head 000000000000 count 0 window idle 0 0";
    let kept = "links 2 waiting 020000000031 5 0 0 idle 000000000000 0 0 0";
    let expected = format!("head 4\n{zero} {kept}\nhead 13\n{zero} links 0\n");
    assert!(told.ends_with(&expected), "{told}");
}

#[test]
fn short_outputs_are_refused() {
    let script =
        b"head new 1 020000000001\nhead output 59\nhead tick 2\nhead output 60\nhead tick 2\n";
    let told = answers(script);
    let link = "links 1 idle 000000000000 0 0 0";
    let expected = format!(
        "@1 head 12\nticked 0\n  head 020000000001 count 0 window idle 0 0 {link}\n\
         ticked 2\n  head 020000000001 count 2 window idle 0 0 {link}\n"
    );
    assert!(told.ends_with(&expected), "{told}");
}

#[test]
fn a_box_hears_and_tells_its_drift() {
    let ack = frame("0200000000310200000000018808000500000003000103000a10");
    let script = format!(
        "box new 020000000031\nbox state 020000000031 5 requesting 9 0 0 0 0\nbox hear 0 {ack}\n"
    );
    let answer = frame("0180c20000010200000000318808000600000003010001000a");
    let report = frame("0180c20000010200000000318808000300000003");
    let expected = format!(
        "box 0 drift -2 frame {answer} frame {report} notice registered\n  \
         box 020000000031 count 3 registered 0 62500000 3125000 port 1 sync 10 light rest 0 grants 0\n"
    );
    let told = answers(script.as_bytes());
    assert!(told.ends_with(&expected), "{told}");
}

#[test]
fn a_fading_transmitter_is_handed_in_printed_and_judged() {
    for (left, number) in [(0, 13), (1, 7), (32, 7), (33, 13)] {
        let before = format!(
            "box state 020000000031 7 registered 0 62500000 3125000 1 0\nbox light fading {left}\n"
        );
        let expected = format!(
            "box {number} drift 0\n  box 020000000031 count 7 registered 0 62500000 3125000 \
             port 1 sync 0 light fading {left} grants 0\n"
        );
        assert_eq!(told_after(&before, "box register\n"), expected);
    }
}

#[test]
fn both_tick_the_head_first_and_stop_at_a_refusal() {
    let script = b"head new 1 020000000001\nbox state 020000000031 0 registered 0 9 3 1 0\n\
        box light open 2\nhead link 1 registered 020000000031 0 9 3\nboth tick 3\n\
        box state 000000000000 0 wait 0 0 0 0 0\nboth tick 3\n";
    let told = answers(script);
    let gate = frame("0200000000310200000000018808000200000003");
    let report = frame("0180c20000010200000000318808000300000003");
    let expected = format!(
        "@2 box 0 drift 0 notice close\n@3 head 0 frame {gate}\n@3 box 0 drift 0 frame {report}\nticked 3\n"
    );
    assert!(told.contains(&expected), "{told}");
    assert!(
        told.contains("\n@1 box 13 drift 0\nticked 0\n  head 020000000001 count 4 "),
        "{told}"
    );
}

/// An open window, a discovery grant, light that fades, ends of every timer; one
/// box is refused in its fifth tick.
const BOXES: [&str; 9] = [
    "box state 020000000031 4294967290 registered 0 90 30 1 10\nbox list 1 20 132\nbox light due 26 20 132 10\n",
    "box state 020000000031 7 registered 0 200 1 1 0\nbox light open 50\n",
    "box state 020000000031 7 registered 0 62500000 3125000 1 0\nbox list 3 5 110 50 105 60 120\n",
    "box state 020000000031 7 registered 0 62500000 3 1 0\nbox light warming 5\n",
    "box state 020000000031 0 registering 0 0 0 0 0\nbox light before 3 4 5\n",
    "box state 020000000031 0 requesting 60 0 0 0 0\nbox light asking 42\n",
    "box state 020000000031 7 registered 0 200 3125000 1 0\nbox list 2 38 106 39 106\nbox light fading 32\n",
    "box state 020000000031 4294967295 wait 0 0 0 0 0\n",
    "box state 000000000000 0 wait 0 0 0 0 0\n",
];

/// Windows that open and close, links that ring alone and together, an output
/// that is too short, an unsound table.
const HEADS: [&str; 5] = [
    "head new 2 020000000001\n",
    "head new 2 020000000001\nhead state 020000000001 4294967290 before 10 5\n\
     head link 1 registered 020000000031 0 90 40\nhead link 2 waiting 020000000032 30 0 0\n",
    "head new 2 020000000001\nhead link 1 registered 020000000031 0 90 7\n\
     head link 2 waiting 020000000032 7 0 0\n",
    "head new 2 020000000001\nhead output 119\n",
    "head new 2 020000000001\nhead link 1 idle 020000000031 0 0 0\n",
];

/// What `WHO tick TICKS` prints, put together from single ticks up to the
/// first that is refused.
fn by_single_ticks(before: &str, who: &str, ticks: usize) -> String {
    let single = format!("{who} tick 1\n");
    let told = told_after(before, &single.repeat(ticks));
    let (mut lines, mut state) = (String::new(), String::new());
    let mut made = 0;
    let mut refused = false;
    for line in told.split_inclusive('\n') {
        match line.strip_prefix("@1 ") {
            _ if line.starts_with("  ") => state.push_str(line),
            _ if refused => break,
            Some(told) => lines.push_str(&format!("@{} {told}", made + 1)),
            None => {
                refused = line == "ticked 0\n";
                made += usize::from(!refused);
                state.clear();
            }
        }
    }
    format!("{lines}ticked {made}\n{state}")
}

/// What lines answer after others.
fn told_after(before: &str, lines: &str) -> String {
    let told = answers(format!("{before}{lines}").as_bytes());
    let told = told.strip_prefix(&answers(before.as_bytes())).unwrap();
    told.to_owned()
}

#[test]
fn a_tick_line_prints_what_single_ticks_do() {
    for head in HEADS {
        for floor_box in BOXES {
            let before = format!("{head}{floor_box}");
            for (who, ticks) in [("head", 100), ("box", 160), ("both", 160)] {
                let told = told_after(&before, &format!("{who} tick {ticks}\n"));
                let expected = by_single_ticks(&before, who, ticks);
                assert_eq!(told, expected, "{before}{who}");
            }
        }
    }
}

#[test]
fn a_second_of_ticks_takes_no_time_and_tells_all_of_it() {
    let before =
        "head new 2 020000000001\nhead link 1 registered 020000000031 0 62500000 3125000\n\
        box state 020000000031 0 registered 0 62500000 3125000 1 0\n";
    let told = told_after(before, "both tick 62500001\n");
    let lines: Vec<&str> = told.lines().collect();
    // Twenty periods each; at the end of the last the watchdogs come first.
    assert_eq!(lines.len(), 40 + 3, "{told}");
    assert!(lines[0].starts_with("@3125000 head 0 frame 020000000031"));
    assert!(lines[37].starts_with("@59375000 box 0 drift 0 frame 0180c2000001"));
    assert!(lines[38].starts_with("@62500000 head 0 frame 020000000031"));
    assert!(lines[39].ends_with(" notice deregistered"));
    assert_eq!(lines[40], "ticked 62500001");
    assert!(lines[41].starts_with("  head 020000000001 count 62500001 window idle"));
    assert!(lines[42].starts_with("  box 020000000031 count 62500001 wait 0 0 0"));
}

#[test]
fn an_advance_tells_how_many_ticks_it_made() {
    let box_at = "box state 020000000031 1000 registered 0 62500000 100 0 0\n";
    let state = |count, timers| {
        format!("  box 020000000031 count {count} registered 0 {timers} port 0 sync 0 light rest 0 grants 0\n")
    };
    let made_50 = format!("box 0 drift 0 made 50\n{}", state(1050, "62499950 50"));
    assert_eq!(told_after(box_at, "box advance 50\n"), made_50);
    let report = frame("0180c2000001020000000031880800030000044c");
    let left = state(1100, "62499900 3125000");
    let made_100 = format!("box 0 drift 0 frame {report} made 100\n{left}");
    assert_eq!(told_after(box_at, "box advance 65536\n"), made_100);
    let stays = state(1000, "62500000 100");
    for ticks in ["0", "65537", "4294967297", "18446744073709551615"] {
        let told = told_after(box_at, &format!("box advance {ticks}\n"));
        assert_eq!(told, format!("box 9 drift 0 made 0\n{stays}"));
    }
    let due = "box state 020000000031 0 registered 0 62500000 3125000 0 0\nbox light warming 5\n";
    let told = told_after(due, "box advance 10\nbox advance 10\nbox advance 0\n");
    let numbers: Vec<&str> = told.lines().step_by(2).collect();
    let expected = ["0 drift 0 made 4", "14 drift 0 made 0", "9 drift 0 made 0"];
    assert_eq!(numbers, expected.map(|told| format!("box {told}")));
}

#[test]
fn an_advance_of_the_head_passes_its_window() {
    let before = "head new 2 020000000001\nhead state 020000000001 0 before 10 5\n\
        head link 1 registered 020000000031 0 62500000 40\nhead link 2 waiting 020000000032 30 0 0\n";
    let gone = frame("020000000032020000000001880800050000001e000202");
    let expected = format!(
        "head 0 frame {gone} made 30\n  head 020000000001 count 30 window idle 0 0 links 2 \
         registered 020000000031 0 62499970 10 idle 000000000000 0 0 0\n"
    );
    assert_eq!(told_after(before, "head advance 65536\n"), expected);
    let short = format!("{before}head output 119\n");
    assert!(told_after(&short, "head advance 0\n").starts_with("head 12 made 0\n"));
    assert!(told_after(before, "head advance 0\n").starts_with("head 9 made 0\n"));
}
