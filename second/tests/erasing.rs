//! Erasing jobs written by hand from document 02, Ask 2: the commands that come
//! and what the panel shows.

mod common;

use common::{counted, printed, tao_with_immed, watched, POLL};
use second::commands::blank;
use second::hex::plain;

/// TAO, one track of 300 with both flags on a used CD-RW. A1h: not ready, half
/// done, then the end. 35h and both 5Bh: one round each.
const TAO_JOB: &str = "\
order tao immed erase data 300
good profile 000A
good disc appendable erasable
good
failed 02 04 07
good progress 8000
good
good progress 0000
good disc blank
good track nwa 0 free 300000
21 x good
good
good progress 0000
good
good
good progress 0000
good
good
good progress 0000
";

/// Behind the first 51h A1h with 11h in byte 1, its polls and 51h anew: 26
/// commands, 2 more for the erasing, and 10 polls.
fn commands_of_tao() -> String {
    let erasing = format!(
        "A1 11 00 00 00 00 00 00 00 00 00 00\n{POLL}{POLL}\
         51 00 00 00 00 00 00 00 22 00\n"
    );
    tao_with_immed(&erasing, POLL, POLL) + "done 38\n"
}

const TAO_OPENING: &str = "\
idle
busy: GET CONFIGURATION
busy: READ DISC INFORMATION
busy: BLANK
busy: TEST UNIT READY, 0.0 %
busy: REQUEST SENSE, 0.0 %
busy: TEST UNIT READY, 50.0 %
busy: REQUEST SENSE, 50.0 %
busy: READ DISC INFORMATION
busy: READ TRACK INFORMATION, track 1 of 1
busy: MODE SELECT, track 1 of 1
busy: WRITE, track 1 of 1, 0 of 300 blocks
";

/// SAO, one audio track of 300, erased without Immed.
const SAO_JOB: &str = "\
order sao erase audio 300
good profile 000A
good disc finalized erasable
good
good disc blank erasable
good track nwa 0 free 300
32 x good
";

fn last_line(text: &str) -> String {
    printed(text).lines().last().unwrap_or("").to_string()
}

#[test]
fn tao_commands() {
    assert_eq!(printed(TAO_JOB), commands_of_tao());
}

#[test]
fn tao_on_the_panel() {
    let watched = watched(TAO_JOB);
    assert!(watched.starts_with(TAO_OPENING));
    assert!(watched.ends_with(
        "busy: CLOSE TRACK SESSION, session\n\
         busy: TEST UNIT READY, 0.0 %\n\
         busy: REQUEST SENSE, 0.0 %\n\
         finished, commands given: 38\n"
    ));
    assert_eq!(watched.lines().count(), 40);
}

/// 35 commands and 2 more; A1h with 01h in byte 1, and no polls.
#[test]
fn sao_commands() {
    let printed = printed(SAO_JOB);
    let lines: Vec<&str> = printed.lines().collect();
    let opening = [
        "46 00 00 00 00 00 00 00 08 00",
        "51 00 00 00 00 00 00 00 22 00",
        "A1 01 00 00 00 00 00 00 00 00 00 00",
        "51 00 00 00 00 00 00 00 22 00",
        "52 01 00 00 00 FF 00 00 30 00",
        "55 10 00 00 00 00 00 00 3C 00",
        "5D 00 00 00 00 00 00 00 20 00",
        "2A 00 FF FF FF 6A 00 00 10 00",
    ];
    assert_eq!(lines[..8], opening);
    let closing = [
        "2A 00 00 00 01 20 00 00 0C 00",
        "35 00 00 00 00 00 00 00 00 00",
        "done 37",
    ];
    assert_eq!(lines[35..], closing);
}

/// Ask 2: twelve bytes, 01h in byte 1, 11h with Ask 1's flag.
#[test]
fn bytes_of_blank() {
    assert_eq!(plain(&blank(false)), "A1 01 00 00 00 00 00 00 00 00 00 00");
    assert_eq!(plain(&blank(true)), "A1 11 00 00 00 00 00 00 00 00 00 00");
}

/// The count without polls grows by exactly 2 where an erasing took place.
#[test]
fn the_count_grows_by_2() {
    for (method, kind, rest, count) in [("tao", "data", 23, 26), ("sao", "audio", 32, 35)] {
        let job = |disc: &str, erased: &str| {
            format!(
                "order {method} erase {kind} 300\ngood profile 000A\ngood disc {disc}\n{erased}\
                 good track nwa 0 free 300\n{rest} x good\n"
            )
        };
        let blank = last_line(&job("blank erasable", ""));
        assert_eq!(blank, format!("done {count}"));
        for disc in ["appendable erasable", "finalized erasable"] {
            let erased = last_line(&job(disc, "good\ngood disc blank\n"));
            assert_eq!(erased, format!("done {}", count + 2));
        }
    }
}

/// Commands of an erasing that are no polls stay the same however long it is.
#[test]
fn the_count_excludes_polls() {
    for rounds in [0, 1, 9] {
        let more = "busy\ngood progress 0100\n".repeat(rounds);
        let job = TAO_JOB.replacen("failed 02 04 07\n", &format!("{more}failed 02 04 07\n"), 1);
        assert_eq!(counted(&job), (28, 10 + 2 * rounds));
    }
}

/// 16: the flag is set, the disc is used, and it is no CD-RW or not Erasable.
#[test]
fn discs_that_cannot_be_erased() {
    for (profile, disc, ends) in [
        ("0009", "appendable", "stop 16 2"),
        ("0009", "finalized erasable", "stop 16 2"),
        ("000A", "appendable", "stop 16 2"),
        ("000A", "finalized", "stop 16 2"),
        ("000A", "finalized erasable", "waiting 3"),
        ("0009", "blank", "waiting 3"),
        ("000A", "blank", "waiting 3"),
        ("0008", "finalized", "stop 5 2"),
        ("000A", "other erasable", "stop 6 2"),
    ] {
        let job = |flag: &str| {
            format!("order tao{flag} data 300\ngood profile {profile}\ngood disc {disc}\n")
        };
        assert_eq!(last_line(&job(" erase")), ends, "{profile} {disc}");
        assert_eq!(last_line(&job("")), "waiting 3", "{profile} {disc}");
    }
    let panel = watched("order sao erase data 300\ngood profile 0009\ngood disc appendable\n");
    assert!(panel.ends_with("stopped: 16, disc cannot be erased, commands given: 2\n"));
}

/// No disc is wiped for an order known to be bad: 5, 24 (Ask 12), 8, 9 and S
/// come first. In TAO S is charged (Ask 6).
#[test]
fn bad_orders_wipe_nothing() {
    for (order, ends) in [
        ("tao erase audio 300", "stop 24 2"),
        ("tao keep erase data 300 audio 300", "stop 24 2"),
        ("sao keep erase data 300", "stop 8 2"),
        ("sao erase data 300 audio 300", "stop 8 2"),
        ("tao erase data 299", "stop 9 2"),
        ("tao erase data 404850", "stop 10 2"),
        ("sao erase data 404850", "stop 10 2"),
        ("tao erase data 449849", "stop 10 2"),
        ("sao erase data 449849", "stop 10 2"),
        ("tao erase data 300 data 404398", "stop 10 2"),
        ("tao keep erase data 300 data 404397", "waiting 3"),
        ("sao erase audio 300 audio 404549", "waiting 3"),
        ("sao erase data 300 data 404550", "stop 10 2"),
        ("sao erase data 300 data 404549", "waiting 3"),
        ("sao erase data 404849", "waiting 3"),
    ] {
        for opening in [
            "good profile 0009\ngood disc blank\n",
            "good profile 000A\ngood disc finalized erasable\n",
        ] {
            let printed = printed(&format!("order {order}\n{opening}"));
            assert!(printed.ends_with(&format!("{ends}\n")), "{order}");
            let erases = ends == "waiting 3" && opening.contains("erasable");
            assert_eq!(printed.contains("A1 01"), erases, "{order}");
        }
    }
}

/// At the second 51h only blank passes; the 52h is judged for 4, 7 and 10.
#[test]
fn after_the_erasing() {
    let erased = "good profile 000A\ngood disc appendable erasable\ngood\n";
    for method in ["tao", "sao"] {
        let end =
            |replies: &str| last_line(&format!("order {method} erase data 300\n{erased}{replies}"));
        assert_eq!(end("good disc appendable erasable\n"), "stop 6 4");
        assert_eq!(end("good disc finalized erasable\n"), "stop 6 4");
        assert_eq!(end("good disc other erasable\n"), "stop 6 4");
        assert_eq!(end("good\n"), "stop 4 4");
        assert_eq!(end("good disc blank\n"), "waiting 5");
        assert_eq!(end("good disc blank\ngood\n"), "stop 4 5");
        let track = |line: &str| end(&format!("good disc blank\ngood track {line}\n"));
        assert_eq!(track("nwa 0 free 299 damaged"), "stop 7 5");
        assert_eq!(track("nwa 0 free 299"), "stop 10 5");
        assert_eq!(track("nwa 0 free 300"), "waiting 6");
    }
}

/// A1h that fails stops with 12, also where a 00h would go on.
#[test]
fn blank_fails() {
    for flags in ["erase", "immed erase"] {
        let job = |reply: &str| {
            format!(
                "order tao {flags} data 300\ngood profile 000A\n\
                 good disc appendable erasable\n{reply}\n"
            )
        };
        assert_eq!(last_line(&job("failed 05 26 00")), "stop 12 3 05 26 00");
        assert_eq!(last_line(&job("failed 02 04 07")), "stop 12 3 02 04 07");
        assert_eq!(last_line(&job("failed")), "stop 12 3 00 00 00");
        assert_eq!(last_line(&job("2 x busy")), "waiting 5");
    }
}
