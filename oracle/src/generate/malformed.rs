//! Scripts that break the rules of the language, or may: a malformed line ends the run, so each is a run of its own.

use super::campaign;
use super::class::Class;
use super::dice::Dice;
use super::plan::Plan;
use crate::script::{LONGEST_HISTORY, LONGEST_LINE};

const NEW: &str = "new 3fe0000000000000 3feccccccccccccd rand1 4 1";
const SAMPLE: &str = "sample 1 float 0000000000000000 3ff0000000000000 lin -";

/// What may follow a seed, and what may not.
const RULES: &str = "clamp,midpoint,,Midpoint,CLAMP,clam,clamped,midpoin,midpoints,midpoint , midpoint,midpoint\r,midpoint\0,\
    clampmidpoint,clamp midpoint,midpoint midpoint,halfway,0,1,-";

/// Lines near the edge of what is allowed, some of them allowed.
const LINES: &[&str] = &[
    "",
    " ",
    "#",
    "# x",
    " #",
    "look ",
    " look",
    "look look",
    "Look",
    "clear 1",
    "state 1",
    "state\t",
    "look\r",
    "tell",
    "tell 1",
    "tell  1 0000000000000000",
    "tell 1 0000000000000000",
    "tell 1 0000000000000000 ",
    "tell 1 0000000000000000 1",
    "tell -1 0000000000000000",
    "tell +1 0000000000000000",
    "tell 18446744073709551615 0000000000000000",
    "tell 18446744073709551616 0000000000000000",
    "tell 000000000000000000000000000001 0000000000000000",
    "tell 1 000000000000000",
    "tell 1 00000000000000000",
    "tell 1 3FF0000000000000",
    "tell 1 3ff000000000000g",
    "tell 1 7ff8000000000000",
    "tell 1 fff0000000000001",
    "tell 1 -",
    "tell 1 0000000000000000 complete",
    "tell 1 0000000000000000 pruned",
    "tell 1 0000000000000000 failed",
    "tell 1 7ff8000000000000 complete",
    "tell 1 7ff8000000000000 pruned",
    "tell 1 fff0000000000001 failed",
    "tell 1 0000000000000000 Complete",
    "tell 1 0000000000000000 FAILED",
    "tell 1 0000000000000000 complet",
    "tell 1 0000000000000000 completed",
    "tell 1 0000000000000000 prune",
    "tell 1 0000000000000000 pruned ",
    "tell 1 0000000000000000  pruned",
    "tell 1 0000000000000000 prunedfailed",
    "tell 1 0000000000000000 pruned failed",
    "tell 1 0000000000000000 failed failed",
    "tell 1 0000000000000000 complete 0",
    "tell 1 0000000000000000 fail",
    "tell 1 0000000000000000 failed\r",
    "tell 1 0000000000000000 failed\0",
    "tell 1 0000000000000000 running",
    "tell 1 0000000000000000 0",
    "tell 1 0000000000000000 -",
    "tell 1 pruned",
    "tell 1 pruned 0000000000000000",
    "tell pruned 1 0000000000000000",
    "tell 1 000000000000000 failed",
    "tell 18446744073709551616 0000000000000000 failed",
    "failed 1 0000000000000000",
    "new",
    "new 3fe0000000000000 3feccccccccccccd rand1 -",
    "new 3fe0000000000000 3feccccccccccccd rand1 - 1 1",
    "new 3fe0000000000000 3feccccccccccccd rand2 - 1",
    "new 3fe0000000000000 3feccccccccccccd Rand1 - 1",
    "new 3fe0000000000000 3feccccccccccccd current-to-best1 - 1",
    "new 3fe0000000000000 3feccccccccccccd best1 160 18446744073709551615",
    "new 3fe0000000000000 3feccccccccccccd best1 161 1",
    "new 3fe0000000000000 3feccccccccccccd best1 18446744073709551615 1",
    "new 3fe0000000000000 3feccccccccccccd best1 18446744073709551616 1",
    "new 3fe0000000000000 3feccccccccccccd best1 -1 1",
    "new 3fe0000000000000 3feccccccccccccd best1 4 -",
    "new 7ff8000000000000 3feccccccccccccd best1 4 1",
    "new 3fe0000000000000 3feccccccccccccd rand1 4 midpoint 1",
    "new 3fe0000000000000 3feccccccccccccd rand1 4 midpoint",
    "new 3fe0000000000000 3feccccccccccccd midpoint rand1 4 1",
    "new 3fe0000000000000 3feccccccccccccd rand2 4 1 midpoint",
    "new 3fe0000000000000 3feccccccccccccd rand1 4 - midpoint",
    "new 4004000000000000 3feccccccccccccd rand1 4 1 midpoint",
    "new 3fe0000000000000 bfb999999999999a rand1 4 1 midpoint",
    "new 3fe0000000000000 3feccccccccccccd rand1 161 1 midpoint",
    "new 4004000000000000 3feccccccccccccd rand1 4 1 halfway",
    "midpoint",
    "sample",
    "sample 1",
    "sample 1 choice",
    "sample 1 choice 3",
    "sample 1 choice 3 3",
    "sample 1 choice -3",
    "sample 1 choice 18446744073709551615",
    "sample 1 choice 18446744073709551616",
    "sample 1 float 0000000000000000 3ff0000000000000 lin",
    "sample 1 float 0000000000000000 3ff0000000000000 lin -",
    "sample 1 float 0000000000000000 3ff0000000000000 Lin -",
    "sample 1 float 0000000000000000 3ff0000000000000 log -",
    "sample 1 float 0000000000000000 3ff0000000000000 lin 1",
    "sample 1 float 0000000000000000 3ff0000000000000 lin - -",
    "sample 1 float 0 1 lin -",
    "sample 1 int 0 1 lin -",
    "sample 1 int -0 00001 lin -",
    "sample 1 int - 1 lin -",
    "sample 1 int --1 1 lin -",
    "sample 1 int 1- 1 lin -",
    "sample 1 int +1 1 lin -",
    "sample 1 int -9223372036854775808 9223372036854775807 lin -",
    "sample 1 int -9223372036854775809 1 lin -",
    "sample 1 int 0 9223372036854775808 lin -",
    "sample 1 int 0 5 lin 9223372036854775807",
    "sample 1 int 0 5 lin 9223372036854775808",
    "sample 1 int 0 5 log 1",
    "sample 1 int 1 5 log -",
    "sample 1 Int 0 5 lin -",
    "sample -1 int 0 5 lin -",
    "sample 1 int 0 5 lin - # a comment",
    "sample 1 int 0\0 5 lin -",
    "sample 1 \u{e9} 5",
    "quit",
    "save",
    "save ",
    "save 1",
    "Save",
    "saved",
    "restore",
    "restore ",
    "restore 1",
    "restored",
    "bytes",
    "bytes 1",
    " bytes",
    "file",
    "file ",
    "file -",
    "file -1",
    "file 0",
    "file 00000000000000000000000000000000032",
    "file 64 64",
    "file 81920",
    "file 81921",
    "file 18446744073709551615",
    "file 18446744073709551616",
    "put",
    "put 0",
    "put 0 ",
    "put 00",
    "put 0 00",
    "put 0 00 00",
    "put 0 0",
    "put 0 000",
    "put 0  00",
    "put 0 0A",
    "put 0 0g",
    "put 0 -1",
    "put - 00",
    "put -1 00",
    "put +1 00",
    "put 18446744073709551615 00",
    "put 18446744073709551615 0000",
    "put 18446744073709551616 00",
];

/// The scripts: those by hand, then so many random ones.
pub fn scripts(seed: u64, random: usize) -> Vec<Vec<u8>> {
    let mut all: Vec<Vec<u8>> = Vec::new();
    let rules = RULES.split(',').map(|rule| format!("{NEW} {rule}"));
    for line in LINES.iter().map(|line| (*line).to_owned()).chain(rules) {
        // After an accepted set-up, before any, and after a refused one.
        all.push(format!("{NEW}\n{SAMPLE}\n{line}\nlook\nstate\n").into_bytes());
        all.push(format!("{line}\nlook\n").into_bytes());
        all.push(format!("{NEW}\nnew 4004000000000000 3feccccccccccccd best1 4 1\n{line}\nlook\n").into_bytes());
        // As the last line, with no line feed.
        all.push(format!("{NEW}\n{line}").into_bytes());
    }
    for length in [LONGEST_LINE - 1, LONGEST_LINE, LONGEST_LINE + 1, 100_000] {
        let comment = "#".repeat(length);
        let zeros = format!("tell {}1 0000000000000000", "0".repeat(length - 23));
        for line in [comment, zeros] {
            all.push(format!("{NEW}\n{SAMPLE}\n{line}\n{SAMPLE}\nstate\n").into_bytes());
            all.push(format!("{NEW}\n{line}").into_bytes());
        }
    }
    for count in [LONGEST_HISTORY, LONGEST_HISTORY + 1] {
        let told = "tell 7 3ff0000000000000\n".repeat(count);
        all.push(format!("{NEW}\n{told}{SAMPLE}\nclear\n{SAMPLE}\ntell 1 0000000000000000\nstate\n").into_bytes());
        all.push(format!("{told}{NEW}\n{SAMPLE}\ntell 1 0000000000000000\nstate\n").into_bytes());
    }
    all.extend(["", " failed"].map(|state| full_history(state).into_bytes()));
    all.extend(kept_files());
    all.push(largest_file().into_bytes());
    let mut dice = Dice::new(seed);
    all.extend((0..random).map(|_| spoilt(&mut dice)));
    all
}

/// A history with as many entries as there may be closes a generation: its first entry counts, and its last.
fn full_history(state: &str) -> String {
    let mut script = format!("{NEW}\n{SAMPLE}\n");
    for trial in 2..=5 {
        script += &format!("{}\n", SAMPLE.replace("sample 1", &format!("sample {trial}")));
    }
    script += "tell 2 3ff0000000000000\ntell 3 4000000000000000\ntell 4 4008000000000000\n";
    script += &"tell 5 c000000000000000\n".repeat(LONGEST_HISTORY - 4);
    script
        + &format!(
            "tell 5 c008000000000000{state}\n{}\nlook\nstate\n",
            SAMPLE.replace("sample 1", "sample 6")
        )
}

/// What may be done to a kept file: up to its end and past it, before a `save` and after it, with no state.
fn kept_files() -> Vec<Vec<u8>> {
    const REFUSED: &str = "new 4004000000000000 3feccccccccccccd best1 4 1";
    let saved = format!("{NEW}\n{SAMPLE}\nsave\n");
    let unsaved = format!("{NEW} midpoint\n{SAMPLE}\nsave\n");
    // The file has eight records, 256 bytes.
    let longest = "0".repeat(LONGEST_LINE - "put 0 ".len());
    let mut all = Vec::new();
    for lines in [
        "put 255 00",
        "put 256 00",
        "put 255 0000",
        "put 254 0000",
        "put 248 0000000000000000",
        "put 249 0000000000000000",
        "put 4294967296 00",
        "put 9223372036854775807 00",
        "put 18446744073709551360 00",
        "file 0\nput 0 00",
        "file 1\nput 0 ff\nbytes\nput 1 ff",
        "file 33\nput 31 0123456789abcdef\nbytes",
        "file 33\nput 31 abcd\nbytes\nrestore",
        "file 81920\nput 81919 01\nrestore\nput 81920 01",
        &format!("put 0 {longest}\nbytes"),
        &format!("file 256\nput 0 {longest}\nbytes"),
        &format!("file 252\nput 0 {longest}\nbytes"),
        &format!("put 00 {longest}\nbytes"),
        &format!("{REFUSED}\nrestore\nsave\nbytes"),
        &format!("{REFUSED}\nfile 256\nrestore\nsave"),
        &format!("{REFUSED}\nsave"),
        &format!("{REFUSED}\nlook\nrestore"),
        &format!("{REFUSED}\nrestore\nlook\n{SAMPLE}\nstate"),
    ] {
        for end in ["\nrestore\nstate\n", "\nbytes\nsave\nlook\n", ""] {
            all.push(format!("{saved}{lines}{end}").into_bytes());
            all.push(format!("{unsaved}{lines}{end}").into_bytes());
            all.push(format!("{saved}{unsaved}{lines}{end}").into_bytes());
            all.push(format!("{lines}{end}").into_bytes());
        }
    }
    all
}

/// The largest saved file: 160 slots, 16 dimensions, 64 extras, after a closing.
fn largest_file() -> String {
    let call = |trial| format!("{}\n", SAMPLE.replace("sample 1", &format!("sample {trial}")));
    let mut script = format!("{}\n", NEW.replace("rand1 4", "best1 160"));
    script += &call(0).repeat(16);
    for trial in 1..=160 {
        script += &format!("{}tell {trial} 3ff0000000000000\n", call(trial));
    }
    for trial in 161..=384 {
        script += &call(trial);
    }
    // The upper two bytes of the last entry: it is +infinity or NaN then.
    script + "save\nbytes\nput 73110 f07f\nrestore\nsave\nrestore\nstate\nlook\nbytes\n"
}

/// A short section with a few bytes changed.
fn spoilt(dice: &mut Dice) -> Vec<u8> {
    let plan = Plan::random(Class::Short, dice);
    let mut text = campaign::play(&plan, dice).text;
    for _ in 0..dice.between(1, 3) {
        let at = dice.below(text.len());
        let byte = *dice.pick(b" \n\t0123456789abcdef-xnlgs#A");
        match dice.below(3) {
            0 => text[at] = byte,
            1 => text.insert(at, byte),
            _ => {
                text.remove(at);
            }
        }
    }
    text
}
