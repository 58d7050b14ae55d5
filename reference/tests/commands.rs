//! The command line: what it prints and how it ends.

mod common;

use std::path::PathBuf;

use common::program::{printed, run, sample, stopped};
use reference::draft::mend_length;

#[test]
fn check_and_ask() {
    let cert = sample("sample.cert");
    assert_eq!(printed(&["check", &cert], b""), "accepted\n");
    assert_eq!(printed(&["check", "-"], b""), "refused 1 0\n");
    assert_eq!(printed(&["ask", &cert, "3", "2"], b""), "in\n");
    assert_eq!(printed(&["ask", &cert, "3", "0x3"], b""), "out\n");
    assert_eq!(printed(&["ask", &cert, "4", "0"], b""), "refused 13 0\n");
}

#[test]
fn rounds() {
    let cert = sample("sample.cert");
    let said = |from: &str, count: &str| printed(&["round", &cert, from, count], b"");
    assert_eq!(said("0", "3"), "go on from 3\n");
    assert_eq!(said("0x6", "2048"), "ended\n");
    for (from, count) in [("0", "0"), ("0", "2049"), ("8", "1"), ("18446744073709551615", "2")] {
        assert_eq!(said(from, count), "refused 17 0\n", "{from} {count}");
    }
    assert_eq!(printed(&["round", "-", "9", "0"], b""), "refused 1 0\n");
}

/// The sample fits the small limits, and a file of 33,391 bytes does not.
#[test]
fn small_limits() {
    let (fits, long) = (sample("sample.cert"), sample("two_sets.cert"));
    assert_eq!(printed(&["check", "--small", &fits], b""), "accepted\n");
    assert_eq!(printed(&["check", "--small", "-"], b""), "refused 1 0\n");
    assert_eq!(printed(&["check", "--small", &long], b""), "refused 19 0\n");
    assert_eq!(printed(&["check", &long], b""), "accepted\n");
    let told = printed_by(&["explain", "--small", &long], b"", 1);
    let end = "\nThe file has 33391 bytes.\nIt may hold 4 to 16384 by the small limits.\n";
    assert!(told.starts_with("refused 19 0\n") && told.ends_with(end), "{told}");
    let named = printed_by(&["explain", "--small", &fits, &sample("sample.names")], b"", 0);
    assert!(named.starts_with("accepted\n") && named.contains("charge_closed"), "{named}");
}

/// A list as numbers or as a file of bytes, for each command that takes one.
#[test]
fn a_callers_own_rule_numbers() {
    let (plain, own, file) = (sample("sample.cert"), sample("numbered.cert"), sample("numbered.list"));
    let written = (101..=128).rev().map(|number| number.to_string()).collect::<Vec<_>>();
    for list in [&written.join(","), &written.join(" "), &format!(" {} ", written.join(" ,  ")), &file] {
        assert_eq!(printed(&["check", "--numbers", list, &own], b""), "accepted\n", "{list}");
        assert_eq!(run(&["renumber", list, &plain], b"").stdout, std::fs::read(&own).expect("a sample"));
        let shown = printed(&["show", "--numbers", list, &own], b"");
        assert_eq!(shown, printed(&["show", "-"], &std::fs::read(&plain).expect("the sample")));
        let named = printed(&["show", "--numbers", list, &own, &sample("sample.names")], b"");
        assert_eq!(named, printed(&["show", &plain], b""));
        let told = printed_by(&["explain", "--numbers", list, "-"], &std::fs::read(&plain).expect("it"), 1);
        assert!(told.starts_with("refused 8 0\n"), "{told}");
        assert_eq!(printed_by(&["explain", "--numbers", list, &own], b"", 0).find("accepted\n"), Some(0));
    }
    assert_eq!(printed(&["check", &own], b""), "refused 8 0\n");
    for (list, reply) in [("", "refused 18 0\n"), ("007", "refused 18 1\n"), (&plain, "refused 18 234\n")] {
        assert_eq!(printed(&["check", "--numbers", list, "-"], b""), reply);
        assert_eq!(printed_by(&["explain", "--numbers", list, "-"], b"", 1).find(reply), Some(0));
    }
    for list in ["1,,2", ",1", "1,", ",", "256", "1 1000", "-", "no-such-file", "+1"] {
        assert_eq!(stopped(&["check", "--numbers", list, &own], b"").0, Some(1), "{list}");
        assert_eq!(stopped(&["renumber", list, &plain], b"").0, Some(1), "{list}");
    }
    let refused = stopped(&["renumber", &file, &own], b"");
    assert_eq!(refused, (Some(1), "reference: step 0 has the rule byte 123; rules are 1 to 28\n".into()));
}

#[test]
fn cost_of_a_file() {
    assert_eq!(printed(&["cost", &sample("sample.cert")], b""), "at most 0 looks at clauses\n");
    assert_eq!(printed(&["cost", "-"], b""), "refused 1 0\n");
    let horn = std::fs::read(sample("cases/05.cert")).expect("the fifth case");
    // B2 at step 1: two actions, one clause on the left and on the right; then S&G within 0 and I within S.
    let looks = [2 * (3 + 2 + 2), (1 + 64) * (3 + 2 + 2), 64 * (3 + 2 + 2)];
    let all: u64 = looks.iter().sum();
    let printed = printed(&["cost", "-"], &horn);
    assert_eq!(printed, format!("at most {all} looks at clauses\nstep 2: at most {}\n", looks[1]));
}

#[test]
fn both_text_forms() {
    let bytes = std::fs::read(sample("sample.cert")).expect("the sample");
    assert_eq!(run(&["assemble", &sample("sample.txt")], b"").stdout, bytes);
    let shown = printed(&["show", &sample("sample.cert")], b"");
    assert!(shown.contains("\nstep 4 PG dead 3 by 1 0 3  # rule 9: S[T]<S+U, U dead, S&G dead; S dead\n"));
    assert_eq!(run(&["assemble", "-"], shown.as_bytes()).stdout, bytes);
}

#[test]
fn cases_and_their_replies() {
    assert_eq!(printed(&["gen", "0", "0"], b""), "");
    let lines = printed(&["gen", "4", "60"], b"");
    assert_eq!(lines.lines().count(), 60);
    let replies = printed(&["replies"], lines.as_bytes());
    assert_eq!(replies.lines().count(), 60);
    let form = |reply: &str| ["accepted", "in", "out"].contains(&reply) || reply.starts_with("refused ");
    assert!(replies.lines().all(form), "{replies}");
    let empty = b"check \nask 0 0 00\nnumbered - 00\nnumbered 0102\nround 0 0 00\nsmall \n";
    let refused = "refused 1 0\nrefused 1 0\nrefused 18 0\nrefused 18 2\nrefused 1 0\nrefused 1 0\n";
    assert_eq!(printed(&["replies"], empty), refused);
    assert_eq!(printed(&["numbered", "4", "60"], b"").lines().count(), 60);
    assert_eq!(printed(&["rounds", "4", "60"], b"").lines().count(), 60);
    assert_eq!(printed(&["small", "4", "60"], b"").lines().count(), 60);
    assert_eq!(printed(&["listed", "4", "60"], b"").lines().count(), 60);
    assert_eq!(run(&["replies"], b"nonsense\n").status.code(), Some(1));
}

/// Pairs of files that differ in the order of listed states, and replies that are alike or not.
#[test]
fn pairs_and_their_replies() {
    let cases = printed(&["relisted", "4", "60"], b"");
    assert_eq!(cases.lines().count(), 120);
    let replies = printed(&["replies"], cases.as_bytes());
    let room = std::env::temp_dir().join(format!("pairs-{}", std::process::id()));
    std::fs::write(&room, &cases).expect("a file");
    let path = room.to_str().expect("a plain name");
    assert_eq!(printed(&["alike", path, "-"], replies.as_bytes()), "");
    let mut lines: Vec<&str> = replies.lines().collect();
    for (changed, told) in [(0, "lines 1 and 2: "), (7, "lines 7 and 8: "), (119, "lines 119 and 120: ")] {
        let reply = std::mem::replace(&mut lines[changed], "refused 11 1000");
        let (status, said) = stopped(&["alike", path, "-"], lines.join("\n").as_bytes());
        assert_eq!(status, Some(1));
        assert!(said.starts_with(&format!("reference: {told}'")), "{said}");
        assert!(said.contains("'refused 11 1000'") && said.contains(&format!("'{reply}'")), "{said}");
        lines[changed] = reply;
    }
    for count in [0, 118, 119] {
        let (status, said) = stopped(&["alike", path, "-"], lines[..count].join("\n").as_bytes());
        let told = format!("reference: 120 cases and {count} replies are no pairs\n");
        assert_eq!((status, said), (Some(1), told));
    }
    std::fs::write(&room, cases.lines().next().expect("a case")).expect("a file");
    assert_eq!(stopped(&["alike", path, "-"], b"accepted\n").0, Some(1));
    std::fs::write(&room, "nonsense\n").expect("a file");
    assert_eq!(stopped(&["alike", path, "-"], b""), (Some(1), "reference: line 1: no case\n".into()));
    std::fs::remove_file(&room).expect("the file goes");
}

/// Twins of versions 1 and 2, and replies that fit or do not; a pair that is none is told too.
#[test]
fn twins_and_their_replies() {
    let cases = printed(&["twins", "4", "40"], b"");
    assert_eq!(cases.lines().count(), 80);
    let replies = printed(&["replies"], cases.as_bytes());
    let room = std::env::temp_dir().join(format!("twins-{}", std::process::id()));
    std::fs::write(&room, &cases).expect("a file");
    let path = room.to_str().expect("a plain name");
    assert_eq!(printed(&["twinned", path, "-"], replies.as_bytes()), "");
    let mut lines: Vec<&str> = replies.lines().collect();
    for (changed, told) in [(1, "lines 1 and 2: "), (79, "lines 79 and 80: ")] {
        let reply = std::mem::replace(&mut lines[changed], "refused 5 15");
        let (status, said) = stopped(&["twinned", path, "-"], lines.join("\n").as_bytes());
        assert_eq!(status, Some(1));
        assert!(said.starts_with(&format!("reference: {told}'")), "{said}");
        lines[changed] = reply;
    }
    let turned: Vec<&str> = cases.lines().rev().collect();
    std::fs::write(&room, turned.join("\n")).expect("a file");
    lines.reverse();
    let (status, said) = stopped(&["twinned", path, "-"], lines.join("\n").as_bytes());
    assert_eq!(status, Some(1));
    assert!(
        said.ends_with("the second file is to be the first in version 2, with no unknown fact\n"),
        "{said}"
    );
    std::fs::remove_file(&room).expect("the file goes");
    for masks in ["unknown", "off"] {
        let cases = printed(&[masks, "4", "30"], b"");
        assert_eq!(printed(&["replies"], cases.as_bytes()).lines().count(), 30);
    }
}

/// Older files and the same in version 3, and replies that are the same or not; a pair that is none is told too.
#[test]
fn older_files_and_their_replies() {
    let cases = printed(&["older", "4", "40"], b"");
    let replies = printed(&["replies"], cases.as_bytes());
    let room = std::env::temp_dir().join(format!("older-{}", std::process::id()));
    std::fs::write(&room, &cases).expect("a file");
    let path = room.to_str().expect("a plain name");
    assert_eq!(printed(&["unchanged", path, "-"], replies.as_bytes()), "");
    let mut lines: Vec<&str> = replies.lines().collect();
    assert_eq!(lines.len(), 80);
    let reply = std::mem::replace(&mut lines[79], "refused 11 1000");
    let (status, said) = stopped(&["unchanged", path, "-"], lines.join("\n").as_bytes());
    let told = format!("reference: lines 79 and 80: '{reply}' and 'refused 11 1000', where ");
    assert!(status == Some(1) && said.starts_with(&told), "{said}");
    let turned: Vec<&str> = cases.lines().rev().collect();
    std::fs::write(&room, turned.join("\n")).expect("a file");
    let (status, said) = stopped(&["unchanged", path, "-"], replies.as_bytes());
    let told = "the second file is to be the first in version 3, with no fact needed off\n";
    assert!(status == Some(1) && said.ends_with(told), "{said}");
    std::fs::remove_file(&room).expect("the file goes");
}

#[test]
fn wrong_calls_print_the_usage_and_end_with_2() {
    let cert = sample("sample.cert");
    let wrong: [&[&str]; 36] = [
        &[],
        &["check"],
        &["check", &cert, "more"],
        &["check", "--numbers"],
        &["check", "--numbers", "1"],
        &["check", "--numbers", "1", &cert, "more"],
        &["check", "--small"],
        &["check", "--small", &cert, "more"],
        &["check", "--small", "--numbers", "1", &cert],
        &["show", "--numbers", "1"],
        &["show", "--small", &cert],
        &["ask", "--small", &cert, "3", "2"],
        &["ask", "--numbers", "1", &cert, "3", "2"],
        &["renumber", &cert],
        &["numbered", "1"],
        &["rounds", "1"],
        &["small", "1"],
        &["listed", "1"],
        &["unknown", "1"],
        &["off", "1"],
        &["older", "1"],
        &["unchanged", &cert],
        &["relisted", "1"],
        &["twins", "1"],
        &["twinned", &cert],
        &["alike", &cert],
        &["round", &cert, "0"],
        &["round", &cert, "0", "18446744073709551616"],
        &["round", "--numbers", "1", &cert, "0", "1"],
        &["ask", &cert, "x", "0"],
        &["ask", &cert, "-1", "0"],
        &["gen", "1"],
        &["gen", "1", "many"],
        &["workload", "0", "1"],
        &["workload", "11", "1"],
        &["no-such-command"],
    ];
    for arguments in wrong {
        let output = run(arguments, b"");
        assert_eq!(output.status.code(), Some(2), "{arguments:?}");
        assert!(output.stdout.is_empty() && output.stderr.starts_with(b"usage: "), "{arguments:?}");
    }
    let missing = run(&["check", "no-such-file"], b"");
    assert_eq!(missing.status.code(), Some(1));
}

/// 0 for an accepted file, 1 for a refused one, 2 where there is nothing to explain.
#[test]
fn explanations_and_their_status() {
    let accepted = run(&["explain", &sample("sample.cert")], b"");
    assert_eq!(accepted.status.code(), Some(0));
    assert!(accepted
        .stdout
        .starts_with(b"accepted\nThis explanation comes from the reference checker, which is not proved"));
    let refused = run(&["explain", "-"], &std::fs::read(sample("cases/02.cert")).expect("the second case"));
    assert_eq!((refused.status.code(), refused.stderr.len()), (Some(1), 0));
    assert!(refused.stdout.starts_with(
        b"refused 11 1\nThis explanation comes from the reference checker, which is not proved"
    ));
    assert_eq!(run(&["explain", "-"], b"").status.code(), Some(1));
    for help in ["-h", "--help"] {
        let output = run(&["explain", help], b"");
        assert_eq!((output.status.code(), output.stderr.len()), (Some(0), 0));
        let usage = b"usage: explain [--numbers LIST | --small] FILE [NAMES] ";
        assert!(output.stdout.starts_with(usage) && output.stdout.ends_with(b")\n"), "{output:?}");
    }
    for wrong in [
        &["explain"][..],
        &["explain", "a", "b", "c"],
        &["explain", "--numbers", "1"],
        &["explain", "--small"],
    ] {
        let output = run(wrong, b"");
        assert_eq!((output.status.code(), output.stdout.len()), (Some(2), 0));
        assert!(
            output.stderr.starts_with(b"usage: explain [--numbers LIST | --small] FILE [NAMES] "),
            "{output:?}"
        );
    }
    for missing in [&["explain", "no-such-file"][..], &["explain", &sample("sample.cert"), "no-such-file"]] {
        let output = run(missing, b"");
        assert_eq!((output.status.code(), output.stdout.len()), (Some(2), 0));
        assert!(output.stderr.starts_with(b"explain: no-such-file: "), "{output:?}");
    }
}

/// Names from a file of names, from the one beside the file, and from a text.
#[test]
fn explanations_with_names() {
    let room = std::env::temp_dir().join(format!("explain-names-{}", std::process::id()));
    std::fs::create_dir_all(&room).expect("a folder");
    let path = |name: &str| room.join(name).to_string_lossy().into_owned();
    std::fs::copy(sample("sample.cert"), path("plain.cert")).expect("a copy");
    std::fs::write(path("own.names"), "# names\nfact 1 right_open\naction 0 open_left\n").expect("names");
    std::fs::write(path("faulty.names"), "fact 1 right open\n").expect("names");

    let plain = printed_by(&["explain", &path("plain.cert")], b"", 0);
    assert!(plain.contains("one with {0 1} on"), "{plain}");
    let given = printed_by(&["explain", &path("plain.cert"), &path("own.names")], b"", 0);
    assert!(given.contains("one with {0 right_open} on"), "{given}");
    for file in ["sample.cert", "sample.txt"] {
        let named = printed_by(&["explain", &sample(file)], b"", 0);
        assert!(named.contains("one with {charge_closed load_closed} on"), "{named}");
    }
    let faulty = run(&["explain", &path("plain.cert"), &path("faulty.names")], b"");
    assert_eq!((faulty.status.code(), faulty.stdout.len()), (Some(2), 0));
    let said = String::from_utf8(faulty.stderr).expect("text");
    assert!(said.starts_with("explain: ") && said.contains("faulty.names: line 1: "), "{said}");
    std::fs::remove_dir_all(&room).expect("the folder goes");
}

/// The path of a file in a folder of this test's own, which is empty at first.
fn room(name: &str) -> impl Fn(&str) -> String {
    let room = PathBuf::from(env!("CARGO_TARGET_TMPDIR")).join(name);
    let _ = std::fs::remove_dir_all(&room);
    std::fs::create_dir_all(&room).expect("a folder");
    move |file: &str| room.join(file).to_string_lossy().into_owned()
}

/// The samples beside each other: as bytes, as texts, from standard input without names, as a table alone, and with another certificate.
#[test]
fn stricter_samples() {
    let (bypass, with_load) = (sample("bypass.cert"), sample("bypass_with_load_refused_11.cert"));
    let yes = "stricter\ngoal wants {load_closed} on as well\n";
    let no = "not stricter\ngoal lacks {load_closed} on, which the second wants\n";
    let bytes = std::fs::read(&with_load).expect("a sample");
    let path = room("stricter_samples");
    std::fs::copy(sample("bypass.names"), path("alone.names")).expect("names");
    for end in [72, 73, bytes.len() - 1] {
        let mut alone = bytes[..end].to_vec();
        mend_length(&mut alone);
        std::fs::write(path("alone.cert"), &alone).expect("a table");
        for table in [&with_load, &with_load.replace(".cert", ".txt"), &path("alone.cert")] {
            assert_eq!(printed_by(&["stricter", table, &bypass], b"", 0), yes);
            assert_eq!(printed_by(&["stricter", &bypass.replace(".cert", ".txt"), table], b"", 1), no);
            assert_eq!(printed_by(&["stricter", table, table], b"", 0), "stricter\nno difference\n");
        }
    }
    let unnamed = printed_by(&["stricter", "-", &bypass], &bytes, 0);
    assert_eq!(unnamed, "stricter\ngoal wants {1} on as well\n");
    assert_eq!(printed_by(&["stricter", &bypass, "-"], &bytes, 1), no);
}

/// What is told of the tables of two texts.
fn told(path: impl Fn(&str) -> String, [first, second]: [&str; 2], status: i32) -> String {
    std::fs::write(path("first.txt"), first).expect("a text");
    std::fs::write(path("second.txt"), second).expect("a text");
    printed_by(&["stricter", &path("first.txt"), &path("second.txt")], b"", status)
}

/// Each kind of line, with the names of the table that it is about.
#[test]
fn stricter_line_by_line() {
    let path = room("stricter_line_by_line");
    let base = "version 3\nfacts 3\nfact 0 a\nfact 1 b\ninit {b}\nunknown {2}\ngoal {a}\n\
                action 0 go pre {a} add {b} del {} off {2}\naction 1 stay pre {} add {} del {b}\n";
    let less = "version 3\nfacts 3\nfact 0 x\nfact 2 z\naction 0 leave pre {} add {} del {1} off {x}\n\
                init {1}\nunknown {z}\ngoal {x 1} off {x z}\n";
    assert_eq!(
        told(&path, [less, base], 0),
        "stricter\ngoal wants {1} on as well\ngoal wants {x z} off as well\n\
         action 0 leave is action 1 stay of the second, and needs {x} off as well\naction 0 go of the second is taken away\n"
    );
    assert_eq!(
        told(&path, [base, less], 1),
        "not stricter\ngoal lacks {b} on, which the second wants\ngoal lacks {a 2} off, which the second wants\n\
         action 0 go comes from no action of the second: none adds {b} and deletes {}\n\
         action 1 stay comes from no action of the second: the nearest, action 0 leave, needs {x} off as well\n"
    );
    let other = "version 2\nfacts 4\nfact 3 d\ninit {1 2}\nunknown {0 d}\n\
                 action 0 pre {} add {1} del {}\naction 1 pre {} add {1} del {}\n";
    assert_eq!(
        told(&path, [other, base], 1),
        "not stricter\nfacts are 4, in the second 3\ninit is {1 2}, in the second {b}\nunknown is {0 d}, in the second {2}\n\
         goal lacks {0} on, which the second wants\n\
         action 0 comes from no action of the second: the nearest, action 0 go, needs {a} on and {2} off as well\n\
         action 1 comes from no action of the second: the nearest, action 0 go, needs {a} on and {2} off as well\n"
    );
    let more = base.replace("pre {a} add {b} del {} off {2}", "pre {0 b} add {b} del {} off {0 2}");
    let said = "stricter\naction 0 go is action 0 go of the second, and needs {b} on and {a} off as well\n";
    assert_eq!(told(&path, [&more, base], 0), said);
}

/// A version makes no difference: the masks that it does not have are empty.
#[test]
fn stricter_in_other_versions() {
    let path = room("stricter_in_other_versions");
    let first = std::fs::read_to_string(sample("bypass.txt")).expect("a text");
    let third = format!("version 3\n{first}");
    for pair in [[&first, &third], [&third, &first]] {
        assert_eq!(told(&path, pair.map(|text| &text[..]), 0), "stricter\nno difference\n");
    }
    let off = third.replace("del {load_closed}", "del {load_closed} off {bypass_closed}");
    let said = "stricter\naction 1 open_load is action 1 open_load of the second, and needs {bypass_closed} off as well\n";
    assert_eq!(told(&path, [&off, &first], 0), said);
    let said = "not stricter\naction 1 open_load comes from no action of the second: \
                the nearest, action 1 open_load, needs {bypass_closed} off as well\n";
    assert_eq!(told(&path, [&first, &off], 1), said);
    let unknown = third.replace("init {}", "init {}\nunknown {load_closed}");
    let said = "not stricter\nunknown is {}, in the second {load_closed}\n";
    assert_eq!(told(&path, [&first, &unknown], 1), said);
}

/// 2 where a table is not to be had, with what keeps it from being read, and for wrong calls.
#[test]
fn tables_that_are_not_compared() {
    let bypass = sample("bypass.cert");
    let path = room("tables_that_are_not_compared");
    let fails = |arguments: &[&str], input: &[u8], said: &str| {
        let words = [&["stricter"], arguments].concat();
        assert_eq!(stopped(&words, input), (Some(2), format!("stricter: {said}\n")), "{arguments:?}");
    };
    let mut bytes = std::fs::read(&bypass).expect("a sample");
    fails(&["-", &bypass], b"", "-: refused 1 0");
    fails(&[&bypass, "-"], &bytes[..72], "-: refused 1 0");
    bytes[21] = 4;
    fails(&["-", &bypass], &bytes, "-: refused 5 14");
    std::fs::write(path("faulty.cert"), &bytes).expect("a file");
    fails(&[&bypass, &path("faulty.cert")], b"", &format!("{}: refused 5 14", path("faulty.cert")));
    std::fs::write(path("text.txt"), "facts 2\ngoal {5}\n").expect("a text");
    fails(&[&path("text.txt"), &bypass], b"", &format!("{}: refused 5 14", path("text.txt")));
    std::fs::write(path("text.txt"), "facts 2\ngaol {5}\n").expect("a text");
    let said = format!("{}: line 2: unknown line 'gaol'", path("text.txt"));
    fails(&[&path("text.txt"), &bypass], b"", &said);
    let mut alone = std::fs::read(&bypass).expect("a sample")[..72].to_vec();
    mend_length(&mut alone);
    std::fs::write(path("named.cert"), &alone).expect("a table");
    std::fs::write(path("named.names"), "fact 2 c\n").expect("names");
    let said = format!("{}: 'c' names fact 2, but the task has 2 facts", path("named.cert"));
    fails(&[&path("named.cert"), &bypass], b"", &said);
    let (status, said) = stopped(&["stricter", &bypass, "no-such-file"], b"");
    assert!(status == Some(2) && said.starts_with("stricter: no-such-file: "), "{said}");
    let wrong: [&[&str]; 4] = [&[], &[&bypass], &[&bypass, &bypass, &bypass], &["-", "-"]];
    for arguments in wrong {
        let (status, said) = stopped(&[&["stricter"], arguments].concat(), b"");
        assert!(
            status == Some(2) && said.starts_with("usage: stricter TABLE TABLE "),
            "{arguments:?}: {said}"
        );
    }
    for help in ["-h", "--help"] {
        let said = printed(&["stricter", help], b"");
        assert!(said.starts_with("usage: stricter TABLE TABLE ") && said.lines().count() == 1, "{said}");
    }
}

fn printed_by(arguments: &[&str], input: &[u8], status: i32) -> String {
    let output = run(arguments, input);
    assert_eq!(output.status.code(), Some(status), "{arguments:?}: {output:?}");
    String::from_utf8(output.stdout).expect("text")
}
