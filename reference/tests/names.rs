//! Names of facts and actions: in the text form, in files of names, and from the command line.

mod common;

use std::path::PathBuf;

use common::naming::names as random_names;
use common::program::{printed, run, sample, stopped};
use reference::assemble::{assemble, parse_named};
use reference::draft::{sample as sample_draft, Draft};
use reference::generate::cases;
use reference::generate::random::Random;
use reference::layout;
use reference::named;
use reference::names::Names;
use reference::show::{show, show_named, text_named};

/// `assemble` undoes `show`, names included, and the bytes are those without names.
#[test]
fn named_texts_come_back() {
    let mut random = Random::new(21);
    let (mut lawful, mut differing) = (0, 0);
    for case in cases(31, 3000) {
        let Ok(file) = layout::read(&case.bytes) else { continue };
        let draft = Draft::of(&file);
        let names = random_names(&mut random, &draft);
        let shown = show_named(&case.bytes, &names);
        let read = parse_named(&shown).unwrap_or_else(|why| panic!("{why}\n{shown}"));
        assert_eq!(read, (draft, names.clone()), "{shown}");
        assert_eq!(assemble(&shown).as_ref(), Ok(&case.bytes), "{shown}");
        assert_eq!(Names::parse(&names.to_string()).as_ref(), Ok(&names));
        lawful += 1;
        differing += (shown != show(&case.bytes)) as usize;
    }
    assert!(lawful > 2000 && differing > 1800, "{lawful} lawful, {differing} with names");
}

/// Where all have names, no fact or action is written as a number apart from the lines that name it.
#[test]
fn names_stand_wherever_they_can() {
    let mut seen = 0;
    for case in cases(32, 1500) {
        let Ok(file) = layout::read(&case.bytes) else { continue };
        let mut names = Names::default();
        names.facts.extend((0..64).take(file.task.facts as usize).map(|f| (f, format!("fact_{f}"))));
        names.actions.extend((0..file.task.actions.len() as u16).map(|a| (a, format!("action_{a}"))));
        for line in show_named(&case.bytes, &names).lines() {
            let listed = line.starts_with("actions ") && line.contains(" list ");
            let from = if listed { line.find(" list ") } else { line.find(['{', '(']) };
            let to = if listed { Some(line.len() - 1) } else { line.rfind(['}', ')']) };
            let (Some(from), Some(to), false) = (from, to, line.starts_with("step ")) else { continue };
            for word in line[from..=to].split([' ', '{', '}', '(', ')', '+', '-']) {
                assert!(word.parse::<u64>().is_err(), "{line}");
                seen += word.starts_with("fact_") as usize + word.starts_with("action_") as usize;
            }
        }
    }
    assert!(seen > 10_000, "{seen}");
}

#[test]
fn the_sample_with_its_names() {
    let text = "facts 2\n\
                fact 0 charge_closed\n\
                fact 1 load_closed\n\
                init {}\n\
                goal {charge_closed load_closed}\n\
                action 0 close_charge pre {} add {charge_closed} del {load_closed}\n\
                action 1 close_load pre {} add {load_closed} del {charge_closed}\n\
                actions 0 all\n\
                set 0 empty\n\
                set 1 init\n\
                set 2 goal\n\
                set 3 explicit {} {charge_closed} {load_closed}\n\
                set 4 = 3 [ 0 ]\n";
    let shown = printed(&["show", &sample("sample.cert")], b"");
    assert!(shown.starts_with(&format!("# accepted\n{text}")), "{shown}");
    let (_, names) = parse_named(text).expect("a text");
    assert_eq!(text_named(&sample_draft(), &names).find(text), Some(0));
}

/// Part of the facts named: numbers and names stand side by side.
#[test]
fn numbers_beside_names() {
    let named = "facts 3\nfact 1 B1\ngoal {0 B1}\naction 0 pre {} add {} del {}\naction 1 go pre {B1 2} add {} del {}\n\
                 actions 0 list 0 go\nset 0 explicit {2 B1} 7 {}\nset 1 horn (+B1 -0) (-B1)";
    let plain = "facts 3\ngoal {0 1}\naction 0 pre {} add {} del {}\naction 1 pre {1 2} add {} del {}\n\
                 actions 0 list 0 1\nset 0 explicit 6 7 0\nset 1 horn (+1 -0) (-1)";
    assert_eq!(assemble(named), assemble(plain));
    assert!(assemble(named).is_ok());
}

const FORM: &str = "it takes letters, digits and _, and no digit at first";

#[test]
fn faulty_names_are_refused_with_their_line() {
    let faults = [
        ("facts 2\nfact 0", "line 2: the line ends too early".to_string()),
        ("fact 64 a", "line 1: '64' is no fact below 64".into()),
        ("fact a a", "line 1: 'a' is no fact below 64".into()),
        ("fact 0 a b", "line 1: 'b' is too much".into()),
        ("\nfact 0 0a", format!("line 2: '0a' is no name: {FORM}")),
        ("fact 0 a-b", format!("line 1: 'a-b' is no name: {FORM}")),
        ("fact 0 zu_öffnen", format!("line 1: 'zu_öffnen' is no name: {FORM}")),
        ("fact 0 goal", "line 1: 'goal' is a word of the text form and no name".into()),
        ("fact 0 a\nfact 0 b", "line 2: fact 0 is already named 'a'".into()),
        ("fact 0 a\nfact 0 a", "line 2: 'a' is already the name of fact 0".into()),
        ("fact 0 a\nfact 1 a", "line 2: 'a' is already the name of fact 0".into()),
        ("fact 0 a\naction 0 a pre {} add {} del {}", "line 2: 'a' is already the name of fact 0".into()),
        (
            "action 0 a pre {} add {} del {}\naction 1 a pre {} add {} del {}",
            "line 2: 'a' is already the name of action 0".into(),
        ),
        ("action 0 a pre {} add {} del {}\nfact 3 a", "line 2: 'a' is already the name of action 0".into()),
        ("action 0 add {}", "line 1: 'add' is a word of the text form and no name".into()),
        ("action 0 {}", format!("line 1: '{{' is no name: {FORM}")),
        ("action 0 a add {}", "line 1: 'pre' expected, not 'add'".into()),
        ("goal {a}\nfact 0 a", "line 1: no line above names a fact 'a'".into()),
        ("set 0 horn (-a)", "line 1: no line above names a fact 'a'".into()),
        ("fact 0 a\nactions 0 list a", "line 2: no line above names an action 'a'".into()),
        ("action 0 a pre {} add {} del {}\ngoal {a}", "line 2: no line above names a fact 'a'".into()),
    ];
    for (text, fault) in faults {
        assert_eq!(assemble(text), Err(fault), "{text}");
    }
}

/// Every word that begins or divides lines of the text form, and no rule's name.
#[test]
fn keywords_are_no_names() {
    let text =
        "version facts fact init unknown goal action actions set step pre add del off all list empty explicit horn \
                twocnf raw dead unsolvable by";
    for word in text.split_whitespace() {
        let fault = format!("line 1: '{word}' is a word of the text form and no name");
        assert_eq!(assemble(&format!("fact 0 {word}")).as_ref(), Err(&fault));
        assert_eq!(Names::parse(&format!("action 0 {word}")), Err(fault));
    }
    for rule in reference::rules::RULES {
        assert!(assemble(&format!("fact 0 {0}\ngoal {{{0}}}", rule.name)).is_ok());
    }
}

#[test]
fn files_of_names() {
    let text = "# switches\nfact 1 load  # the second\n\naction 300 go\nfact 0 charge\n";
    let names = Names::parse(text).expect("a file of names");
    assert_eq!(names.to_string(), "fact 0 charge\nfact 1 load\naction 300 go\n");
    assert_eq!((names.fact(1), names.fact(2), names.action(300)), ("load".into(), "2".into(), "go".into()));
    assert_eq!(names.facts_of(0b111), "{charge load 2}");
    let form = "'fact NUMBER NAME' or 'action NUMBER NAME' expected";
    let faults = [
        ("fact 0 a\nfact 0 b", "line 2: fact 0 is already named 'a'".to_string()),
        ("action 0 a\n\naction 0 b", "line 3: action 0 is already named 'a'".into()),
        ("action 0 a\nfact 0 a", "line 2: 'a' is already the name of action 0".into()),
        ("fact 64 a", "line 1: '64' is no fact below 64".into()),
        ("action 65536 a", "line 1: '65536' is no action number".into()),
        ("fact 0", format!("line 1: {form}")),
        ("fact 0 a b", format!("line 1: {form}")),
        ("facts 2", format!("line 1: {form}")),
        ("fact 0 1", format!("line 1: '1' is no name: {FORM}")),
    ];
    for (text, fault) in faults {
        assert_eq!(Names::parse(text), Err(fault), "{text}");
    }
}

/// An empty folder of this test's own.
fn folder(name: &str) -> PathBuf {
    let folder = PathBuf::from(env!("CARGO_TARGET_TMPDIR")).join(name);
    let _ = std::fs::remove_dir_all(&folder);
    std::fs::create_dir_all(&folder).expect("a folder");
    folder
}

fn names(text: &str) -> Names {
    Names::parse(text).expect("names")
}

#[test]
fn where_names_come_from() {
    let folder = folder("where_names_come_from");
    let path = |name: &str| folder.join(name).to_string_lossy().into_owned();
    let write = |name: &str, text: &str| std::fs::write(path(name), text).expect("a file");
    let bytes = sample_draft().encode();
    let open = |name: &str, names: Option<&str>| named::open(&path(name), bytes.clone(), names);

    assert_eq!(open("a.cert", None), Ok((bytes.clone(), Names::default())));
    write("a.names", "fact 0 beside");
    write("b.names", "fact 0 given");
    write("c.txt", "facts 2\nfact 1 text");
    assert_eq!(open("a.cert", None), Ok((bytes.clone(), names("fact 0 beside"))));
    assert_eq!(open("a.cert", Some(&path("b.names"))), Ok((bytes.clone(), names("fact 0 given"))));
    assert_eq!(open("a.cert", Some(&path("c.txt"))), Ok((bytes.clone(), names("fact 1 text"))));
    assert_eq!(named::open("-", bytes.clone(), None), Ok((bytes.clone(), Names::default())));

    // A text's own names count, not those beside it.
    write("c.names", "fact 0 beside");
    let text = text_named(&sample_draft(), &names("action 1 own"));
    let open_text = |names: Option<&str>| named::open(&path("c.txt"), text.clone().into_bytes(), names);
    assert_eq!(open_text(None), Ok((bytes.clone(), names("action 1 own"))));
    assert_eq!(open_text(Some(&path("b.names"))), Ok((bytes.clone(), names("fact 0 given"))));

    write("a.names", "fact 0 a\nfact 0 b");
    let fault = format!("{}: line 2: fact 0 is already named 'a'", path("a.names"));
    assert_eq!(open("a.cert", None), Err(fault));
    let missing = open("a.cert", Some(&path("none.names"))).expect_err("no such file");
    assert!(missing.starts_with(&path("none.names")), "{missing}");
}

/// Names of another task mislead, so they are refused; where the layout is unlawful there is no task to fit.
#[test]
fn names_that_do_not_fit() {
    let folder = folder("names_that_do_not_fit");
    let file = folder.join("x.names").to_string_lossy().into_owned();
    let bytes = sample_draft().encode();
    let open = |text: &str, bytes: &[u8]| {
        std::fs::write(&file, text).expect("a file of names");
        named::open("-", bytes.to_vec(), Some(&file)).map(|(_, names)| names)
    };
    assert_eq!(open("fact 1 a\naction 1 b", &bytes), Ok(names("fact 1 a\naction 1 b")));
    let fact = "'a' names fact 2, but the task has 2 facts";
    assert_eq!(open("fact 2 a", &bytes), Err(fact.to_string()));
    let action = "'b' names action 2, but the task has 2 actions";
    assert_eq!(open("action 2 b", &bytes), Err(action.to_string()));
    assert_eq!(open("fact 2 a", &bytes[1..]), Ok(names("fact 2 a")));
}

/// A sample with names has them in its text and beside its bytes, the same ones.
#[test]
fn samples_have_the_same_names_twice() {
    let folder = PathBuf::from(sample(""));
    let entries = std::fs::read_dir(folder).expect("the samples").map(|entry| entry.expect("a file").path());
    let texts: Vec<PathBuf> = entries.filter(|path| path.extension().is_some_and(|e| e == "txt")).collect();
    let mut named = 0;
    for path in texts {
        let text = std::fs::read_to_string(&path).expect("a text");
        let (_, own) = parse_named(&text).expect("a lawful text");
        let beside = named::beside(&path.with_extension("cert").to_string_lossy());
        assert_eq!(beside.as_ref(), Ok(&own), "{path:?}");
        named += (own != Names::default()) as usize;
    }
    assert!(named >= 3, "{named}");
}

#[test]
fn names_from_the_command_line() {
    let (cert, text, file) = (sample("sample.cert"), sample("sample.txt"), sample("sample.names"));
    let printed_names = printed(&["names", &text], b"");
    assert_eq!(
        printed_names,
        "fact 0 charge_closed\nfact 1 load_closed\naction 0 close_charge\naction 1 close_load\n"
    );
    let shown = printed(&["show", &cert], b"");
    assert_eq!(printed(&["show", &text], b""), shown);
    let bytes = std::fs::read(&cert).expect("the sample");
    assert_eq!(printed(&["show", "-", &file], &bytes), shown);
    assert_eq!(printed(&["show", "-", &text], &bytes), shown);
    assert_eq!(printed(&["show", "-"], &bytes), show(&bytes));
    assert_eq!(printed(&["names", "-"], shown.as_bytes()), printed_names);
    assert_eq!(run(&["assemble", "-"], shown.as_bytes()).stdout, bytes);
}

#[test]
fn wrong_calls_and_faulty_names_from_the_command_line() {
    let (cert, horn) = (sample("sample.cert"), sample("horn.names"));
    let wrong: [&[&str]; 4] = [&["names"], &["names", "-", "-"], &["show"], &["show", &cert, &horn, "more"]];
    for arguments in wrong {
        let (status, message) = stopped(arguments, b"");
        assert!(status == Some(2) && message.starts_with("usage: "), "{arguments:?}: {message}");
    }
    let fails = |arguments: &[&str], input: &[u8], wanted: &str| {
        assert_eq!(stopped(arguments, input), (Some(1), format!("reference: {wanted}\n")), "{arguments:?}");
    };
    fails(&["names", "-"], b"facts 2\nfact 0 set", "line 2: 'set' is a word of the text form and no name");
    fails(&["show", &cert, &horn], b"", "'gate_open' names fact 2, but the task has 2 facts");
    fails(&["show", &cert, &cert], b"", &format!("{cert}: the text is not UTF-8"));
}
