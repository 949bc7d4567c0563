//! Each call once, and each error that a caller can bring about.
use rbbank::{
    audit, close, fault_of, migrate, script, AnswerError, Audit, Bank, Books, CloseError, Journal,
    JournalError, LineFault, LineKind, Message, OpenError, Refusal, ReplayError, RunError, Site,
};
use std::fs;
use std::path::PathBuf;

const CONFIG: &str = r#"{"accounts":[["ann",0]],"sites":2,"version":1}"#;
const DEPOSIT: &str = r#"{"deposit":["ann",500],"site":0}"#;
const MADE: &str = r#"{"kind":"deposit","name":"B0.1"}"#;

#[test]
fn a_bank_answers() {
    let mut bank = Bank::open(CONFIG).unwrap();
    assert_eq!(bank.answer(DEPOSIT), Ok(MADE));
    assert_eq!(
        bank.answer(r#"{"deliver":1,"site":1}"#),
        Ok(r#"{"held":"B0.1"}"#)
    );
    assert_eq!(
        bank.answer(r#"{"apply":"B0.1","site":1}"#),
        Ok(r#"{"applied":"B0.1"}"#)
    );
    assert_eq!(
        bank.answer(r#"{"balance":"eve","site":1}"#),
        Ok(r#"{"refused":1}"#)
    );
    // A bad line changes nothing.
    for bad in ["", "{", "{}", CONFIG, r#"{"balance":"ann"}"#] {
        assert!(matches!(bank.answer(bad), Err(AnswerError::BadLine(_))));
    }
    assert_eq!(
        bank.answer(r#"{"balance":"ann","site":1}"#),
        Ok(r#"{"balance":500}"#)
    );
}

#[test]
fn two_banks_know_nothing_of_each_other() {
    let (mut one, mut two) = (Bank::open(CONFIG).unwrap(), Bank::open(CONFIG).unwrap());
    assert_eq!(one.answer(DEPOSIT), Ok(MADE));
    let mut moved = one;
    assert_eq!(
        two.answer(r#"{"balance":"ann","site":0}"#),
        Ok(r#"{"balance":0}"#)
    );
    drop(two);
    assert_eq!(
        moved.answer(r#"{"balance":"ann","site":0}"#),
        Ok(r#"{"balance":500}"#)
    );
}

#[test]
fn a_long_reply_comes_whole() {
    let mut bank = Bank::open(CONFIG).unwrap();
    for _ in 0..2000 {
        bank.answer(DEPOSIT).unwrap();
    }
    let statement = bank.answer(r#"{"statement":"ann","site":0}"#).unwrap();
    assert!(
        statement.starts_with(r#"{"balance":1000000,"rows":[[1,"B0.1","deposit",500,false,500],"#)
    );
    assert!(statement.ends_with(r#"[2000,"B0.2000","deposit",500,false,1000000]],"start":0}"#));
    assert_eq!(
        bank.answer(r#"{"balance":"ann","site":0}"#),
        Ok(r#"{"balance":1000000}"#)
    );
}

#[test]
fn a_site_sends_and_another_receives() {
    let (mut home, mut other) = (
        Site::open(0, CONFIG).unwrap(),
        Site::open(1, CONFIG).unwrap(),
    );
    let answer = home.answer_owned(r#"{"deposit":["ann",500]}"#).unwrap();
    assert_eq!(home.reply(), answer);
    let Message { line, to } = home.sends().unwrap().remove(0);
    assert!(to.is_none() && answer.contains(&format!(r#""sends":[{line}]"#)));
    let taken = other.answer(&line);
    assert_eq!(
        taken,
        Ok(r#"{"reply":{"held":"B0.1"},"sends":[],"then":[{"applied":"B0.1"}]}"#)
    );
    assert_eq!(other.entries().lines().count(), 2);
    assert!(matches!(
        other.answer(DEPOSIT),
        Err(AnswerError::BadLine(_))
    ));
}

#[test]
fn each_message_of_an_answer() {
    let mut site = Site::open(0, CONFIG).unwrap();
    assert_eq!(site.sends(), Ok(Vec::new()));
    let names = |site: &mut Site| site.sends().map(|messages| messages.len());
    site.answer(r#"{"batch":[{"deposit":["ann",1]},{"deposit":["ann",2]}]}"#)
        .unwrap();
    assert_eq!(names(&mut site), Ok(2));
    site.answer(r#"{"pass":1}"#).unwrap();
    let token = Message {
        line: r#"{"token":[1,1,0]}"#.to_owned(),
        to: Some(1),
    };
    assert_eq!(site.sends(), Ok(vec![token.clone()]));
    site.answer(r#"{"resend":9}"#).unwrap();
    assert_eq!(names(&mut site), Ok(3));
    assert_eq!(site.sends().unwrap()[2], token);
    site.answer(r#"{"balance":"ann"}"#).unwrap();
    assert_eq!(site.sends(), Ok(Vec::new()));
}

#[test]
fn a_handle_goes_to_another_thread_and_back() {
    fn moves<T: Send>() {}
    moves::<Bank>();
    moves::<Site>();
    let mut bank = Bank::open(CONFIG).unwrap();
    let mut site = Site::open(0, CONFIG).unwrap();
    let event = r#"{"deposit":["ann",500]}"#;
    site.answer(event).unwrap();
    let there = std::thread::spawn(move || {
        bank.answer_owned(DEPOSIT).unwrap();
        site.answer_owned(event).unwrap();
        drop(Site::open(1, CONFIG));
        (bank, site)
    });
    let (mut bank, mut site) = there.join().unwrap();
    assert_eq!(bank.reply(), MADE);
    assert_eq!(
        site.answer(r#"{"balance":"ann"}"#),
        Ok(r#"{"reply":{"balance":1000},"sends":[],"then":[]}"#)
    );
    // Many at once, each a thread's own.
    let answers: Vec<_> = (0..8)
        .map(|_| {
            std::thread::spawn(|| {
                let mut bank = Bank::open(CONFIG).unwrap();
                for _ in 0..500 {
                    bank.answer(DEPOSIT).unwrap();
                }
                bank.answer_owned(r#"{"balance":"ann","site":0}"#)
            })
        })
        .collect();
    for answer in answers {
        assert_eq!(
            answer.join().unwrap(),
            Ok(r#"{"balance":250000}"#.to_owned())
        );
    }
}

#[test]
fn why_a_line_is_not_taken() {
    let entry = r#"{"event":{"balance":"ann"},"reply":{"refused":25},"site":0}"#;
    let said = "column 47: 25 is out of range: a refusal is 1 to 24";
    assert_eq!(fault_of(LineKind::Entry, CONFIG, entry).to_string(), said);
    let mut site = Site::open(0, CONFIG).unwrap();
    let Err(ReplayError::BadLine(why)) = site.replay(entry) else {
        panic!("it is no entry");
    };
    assert_eq!((why.column, why.to_string()), (Some(47), said.to_owned()));
    // An entry of another site has nothing wrong with it but that.
    let entry = r#"{"event":{"balance":"ann"},"reply":{"balance":0},"site":1}"#;
    let why = site.replay(entry).unwrap_err();
    assert_eq!(
        why.to_string(),
        "bad line: it is an entry: another site's, of an id that is there, or not as a site writes it"
    );
    let why = site.answer(r#"{"deposit":["ann",1.0]}"#).unwrap_err();
    assert_eq!(
        why.to_string(),
        "bad line: column 19: 1.0 has a point, and an amount in cents is a whole number"
    );
    let mut bank = Bank::open(CONFIG).unwrap();
    let why = bank.answer(r#"{"balance":"ann"}"#).unwrap_err();
    assert_eq!(
        why.to_string(),
        "bad line: column 17: the key \"site\" of a command is missing"
    );
    let why = Bank::open(r#"{"accounts":[["ann",0]],"sites":17,"version":1}"#).unwrap_err();
    assert_eq!(
        why.to_string(),
        "bad configuration: column 33: 17 is out of range: the number of sites is 2 to 16"
    );
    let why = fault_of(LineKind::Command, "{}", DEPOSIT);
    assert_eq!(
        (why.column, why.to_string()),
        (None, "no configuration".to_owned())
    );
    assert!(format!("{:?}", Bank::open(CONFIG).unwrap()).starts_with("Bank"));
    assert!(format!("{:?}", Site::open(1, CONFIG).unwrap()).starts_with("Site"));
}

#[test]
fn a_journal_is_replayed() {
    let mut site = Site::open(0, CONFIG).unwrap();
    let first = site.entries().to_owned();
    assert!(
        first.starts_with(r#"{"accounts":[["ann",0]],"blue":1000000,"#) && first.ends_with("}\n")
    );
    let answer = site
        .answer(r#"{"deposit":["ann",500]}"#)
        .unwrap()
        .to_owned();
    let entry = site.entries().trim_end().to_owned();
    let mut again = Site::open(0, CONFIG).unwrap();
    assert!(matches!(again.replay("{}"), Err(ReplayError::BadLine(_))));
    let sends = again.replay(&entry).unwrap();
    assert!(
        sends.len() > 20 && answer.contains(sends.trim_end_matches('}').trim_start_matches('{'))
    );
    assert_eq!(again.replay(&entry), Err(ReplayError::WrongReply));
    assert_eq!(again.replay(&entry), Err(ReplayError::Ended));
    assert_eq!(
        again.answer(r#"{"balance":"ann"}"#),
        Err(AnswerError::Ended)
    );
}

#[test]
fn what_is_not_opened() {
    assert!(matches!(
        Bank::open(DEPOSIT),
        Err(OpenError::BadConfiguration(_))
    ));
    assert!(matches!(
        Site::open(0, ""),
        Err(OpenError::BadConfiguration(_))
    ));
    assert_eq!(Site::open(2, CONFIG).err(), Some(OpenError::NoSuchSite));
    assert_eq!(OpenError::NoSuchSite.to_string(), "no such site");
}

#[test]
fn refusals_have_names() {
    for number in 0..=u8::MAX {
        let found = Refusal::numbered(number);
        assert_eq!(
            found.map(Refusal::number),
            (1..=26).contains(&number).then_some(number)
        );
    }
    assert_eq!(
        Refusal::NeedToken.to_string(),
        "refused 8: the site hasn't the token"
    );
    let mut bank = Bank::open(CONFIG).unwrap();
    let mut site = Site::open(1, CONFIG).unwrap();
    assert_eq!(Refusal::of(bank.answer(DEPOSIT).unwrap()), None);
    for (command, refusal) in [
        (r#"{"balance":"eve","site":0}"#, Refusal::UnknownAccount),
        (
            r#"{"batch":[{"cancel":"B0.9"}],"site":0}"#,
            Refusal::BatchRefused,
        ),
        (r#"{"pass":0,"site":1}"#, Refusal::NeedToken),
    ] {
        assert_eq!(Refusal::of(bank.answer(command).unwrap()), Some(refusal));
    }
    for (event, refusal) in [
        (r#"{"deposit":["ann",5],"id":"x"}"#, None),
        (r#"{"deposit":["ann",5],"id":"x"}"#, None),
        (
            r#"{"deposit":["ann",6],"id":"x"}"#,
            Some(Refusal::OtherRequest),
        ),
        (r#"{"pass":1}"#, Some(Refusal::NoSite)),
        (r#"{"resend":9}"#, None),
    ] {
        assert_eq!(Refusal::of(site.answer(event).unwrap()), refusal);
    }
}

#[test]
fn whole_runs() {
    let lines = format!("{CONFIG}\n{DEPOSIT}\n");
    assert_eq!(script(&lines), Ok(format!("{MADE}\n")));
    let bad = script(&format!("{lines}{{}}\n{DEPOSIT}\n"));
    assert_eq!(
        bad,
        Err(RunError::BadLine {
            line: 3,
            written: format!("{MADE}\n"),
            why: fault_of(LineKind::Command, CONFIG, "{}")
        })
    );
    let first = script(&format!("\n {DEPOSIT}\n")).unwrap_err().to_string();
    assert!(
        first.starts_with("line 2: bad line: column 2: the first line is the configuration, as {")
    );
    assert_eq!(script("\n"), Err(RunError::NoConfiguration));
    let history = format!(
        "{CONFIG}\n{{\"event\":{{\"balance\":\"ann\"}},\"reply\":{{\"balance\":0}},\"site\":1}}\n"
    );
    assert_eq!(
        audit(&history),
        Ok(Audit::Order(r#"{"order":[1]}"#.to_owned()))
    );
    assert!(migrate(&history)
        .unwrap()
        .lines()
        .next()
        .unwrap()
        .ends_with(r#""version":2}"#));
    let wrong = history.replace(":0},", ":7},");
    assert_eq!(
        audit(&wrong),
        Ok(Audit::Fault(
            r#"{"event":1,"fault":"reply","site":1}"#.to_owned()
        ))
    );
}

/// The sealed journals of two sites: one made a deposit, which the other has applied if it `received`.
fn journals(received: bool) -> [Vec<u8>; 2] {
    let mut sites = [0, 1].map(|me| Site::open(me, CONFIG).unwrap());
    let mut journals = [String::new(), String::new()];
    for (journal, site) in journals.iter_mut().zip(&mut sites) {
        *journal += site.entries();
    }
    sites[0].answer(r#"{"deposit":["ann",500]}"#).unwrap();
    journals[0] += sites[0].entries();
    if received {
        let message = sites[0].sends().unwrap().remove(0);
        sites[1].answer(&message.line).unwrap();
        journals[1] += sites[1].entries();
    }
    journals.map(|journal| (journal + "\t").into_bytes())
}

#[test]
fn books_are_closed() {
    let [first, second] = journals(true);
    let Ok(Books::Closed(next)) = close(&[&first, &second], None, &[]) else {
        panic!("not closed");
    };
    assert!(next.starts_with(r#"{"accounts":[["ann",500]],"blue":"#));
    let mut bank = Bank::open(&next).unwrap();
    assert_eq!(
        bank.answer(r#"{"balance":"ann","site":1}"#),
        Ok(r#"{"balance":500}"#)
    );
    let Ok(Books::Closed(next)) = close(&[&first, &second], Some(9), &["eve", "zed"]) else {
        panic!("not closed");
    };
    assert!(next.starts_with(r#"{"accounts":[["ann",500],["eve",0],["zed",0]],"#));
    assert!(next.ends_with(r#""sites":9,"version":2}"#));
}

#[test]
fn books_that_are_open() {
    let [first, second] = journals(false);
    let open = r#"{"fault":"open","lacks":[[],["B0.1"]]}"#.to_owned();
    assert_eq!(
        close(&[&first, &second], None, &[]),
        Ok(Books::NotClosed(open))
    );
}

#[test]
fn books_that_are_not_closed() {
    let [first, second] = journals(true);
    let fault = |journals: &[&[u8]]| close(journals, None, &[]).unwrap_err();
    let unsealed = &second[..second.len() - 1];
    assert_eq!(
        fault(&[&first, unsealed]),
        CloseError::NotSealed { journal: 1 }
    );
    assert_eq!(
        fault(&[b"{}\n\t", &second]),
        CloseError::AnotherBank { journal: 0 }
    );
    let again = CloseError::AnotherSite {
        journal: 1,
        line: 2,
    };
    assert_eq!(fault(&[&first, &first]), again);
    assert_eq!(again.to_string(), "journal 1: line 2: another site's entry");
    let spoilt = [unsealed, b"{}\n\t"].concat();
    assert_eq!(
        fault(&[&first, &spoilt]),
        CloseError::BadLine {
            journal: 1,
            line: 4,
            why: LineFault {
                why: "the key \"event\" of an entry is missing".to_owned(),
                column: Some(2)
            }
        }
    );
    let few = CloseError::NumberOfJournals {
        journals: 1,
        sites: 2,
    };
    assert_eq!(fault(&[&first]), few);
    assert_eq!(few.to_string(), "1 journals for 2 sites");
    assert_eq!(fault(&[]), CloseError::NoJournal);
}

#[test]
fn next_banks_that_can_not_be() {
    let [first, second] = journals(true);
    let fault = |sites, names: &[&str]| close(&[&first, &second], sites, names).unwrap_err();
    let there = |name: &str| CloseError::AccountThere {
        name: name.to_owned(),
    };
    let no_name = |name: &str| CloseError::NoName {
        name: name.to_owned(),
    };
    assert_eq!(fault(None, &["zed", "ann"]), there("ann"));
    assert_eq!(fault(None, &["zed", "zed"]), there("zed"));
    assert_eq!(
        there("ann").to_string(),
        "account ann: there is one already"
    );
    for name in ["Ann", "", "eve\nzed"] {
        assert_eq!(fault(None, &["zed", name]), no_name(name));
    }
    let many: Vec<String> = (0..1000).map(|n| format!("a{n}")).collect();
    let many: Vec<&str> = many.iter().map(String::as_str).collect();
    assert_eq!(fault(None, &many), CloseError::TooManyAccounts);
    for sites in [0, 1, 17, 255] {
        assert_eq!(fault(Some(sites), &[]), CloseError::NumberOfSites);
    }
}

/// A path in a new folder of this process.
fn new_path(name: &str) -> PathBuf {
    let folder = std::env::temp_dir().join(format!("rbbank-{}-{name}", std::process::id()));
    fs::create_dir_all(&folder).unwrap();
    folder.join("journal")
}

#[test]
fn a_journal_goes_on() {
    let path = new_path("goes-on");
    let mut site = Journal::open(&path, 0, CONFIG, 0, true).unwrap();
    assert_eq!(site.reply(), "");
    assert!(site
        .answer(r#"{"deposit":["ann",500]}"#)
        .unwrap()
        .starts_with(r#"{"reply":{"kind":"deposit","name":"B0.1"},"#));
    assert_eq!(site.sends().unwrap().len(), 1);
    assert_eq!(site.answer(" ").unwrap(), "");
    let Err(JournalError::BadLine(why)) = site.answer("{}") else {
        panic!("taken");
    };
    assert_eq!(why.column, Some(2));
    assert!(site
        .reply()
        .starts_with(r#"{"bad":"line","line":4,"why":"column 2: "#));
    assert_eq!(site.sends().unwrap(), []);
    assert!(matches!(
        Journal::open(&path, 0, CONFIG, 0, false),
        Err(JournalError::InUse)
    ));
    drop(site);
    // What a crash left of a line is cut off and kept.
    let before = fs::read(&path).unwrap();
    fs::write(
        &path,
        [&before[..before.len() - 1], b"{\"event\":"].concat(),
    )
    .unwrap();
    let mut site = Journal::open(&path, 0, CONFIG, 1, false).unwrap();
    assert_eq!(fs::read(&path).unwrap(), before);
    assert_eq!(
        fs::read(path.with_extension("cut")).unwrap(),
        b"{\"event\":"
    );
    assert!(site.reply().starts_with(r#"{"sends":[{"shadow":"#));
    assert_eq!(
        site.answer_owned(r#"{"balance":"ann"}"#).unwrap(),
        r#"{"reply":{"balance":500},"sends":[],"then":[]}"#
    );
    fs::remove_dir_all(path.parent().unwrap()).unwrap();
}

#[test]
fn journals_that_are_not_opened() {
    let path = new_path("not-opened");
    let fault = |bytes: &[u8], me: u8, config: &str| {
        fs::write(&path, bytes).unwrap();
        let fault = Journal::open(&path, me, config, 0, false).unwrap_err();
        assert_eq!(fs::read(&path).unwrap(), bytes);
        fault.to_string()
    };
    let mut site = Site::open(0, CONFIG).unwrap();
    let head = site.entries().to_owned();
    site.answer(r#"{"deposit":["ann",500]}"#).unwrap();
    let entry = site.entries().to_owned();
    assert_eq!(
        fault(b"", 0, "{}"),
        "bad configuration: column 2: the key \"accounts\" of a configuration is missing"
    );
    assert_eq!(fault(b"", 2, CONFIG), "no such site");
    assert_eq!(fault(b"{}\n ", 0, CONFIG), "another bank's journal");
    let bad = format!("{head}{{}}\n ");
    assert_eq!(
        fault(bad.as_bytes(), 0, CONFIG),
        "journal line 2: bad line: column 2: the key \"event\" of an entry is missing"
    );
    let twice = format!("{head}{entry}{entry} ");
    assert_eq!(
        fault(twice.as_bytes(), 0, CONFIG),
        "journal line 3: wrong reply"
    );
    let damaged = format!("{head}{entry}x");
    assert_eq!(
        fault(damaged.as_bytes(), 0, CONFIG),
        "journal line 3: damaged"
    );
    let sealed = format!("{head}{entry}\t");
    assert_eq!(fault(sealed.as_bytes(), 0, CONFIG), "journal is sealed");
    fs::remove_dir_all(path.parent().unwrap()).unwrap();
}

#[test]
fn a_new_journal_is_asked_for() {
    let path = new_path("asked-for");
    let open = |new| Journal::open(&path, 0, CONFIG, 0, new);
    assert_eq!(open(false).unwrap_err().to_string(), "no journal");
    assert!(!path.exists());
    drop(open(true).unwrap());
    let before = fs::read(&path).unwrap();
    for there in [&before[..], b" "] {
        fs::write(&path, there).unwrap();
        assert_eq!(open(true).unwrap_err().to_string(), "there is a journal");
        assert_eq!(fs::read(&path).unwrap(), there);
    }
    for new in [false, true] {
        fs::write(&path, b"").unwrap();
        drop(open(new).unwrap());
        assert_eq!(fs::read(&path).unwrap(), before);
    }
    fs::remove_dir_all(path.parent().unwrap()).unwrap();
}

#[test]
fn a_journal_whose_name_is_gone_ends() {
    let path = new_path("gone");
    let mut site = Journal::open(&path, 0, CONFIG, 0, true).unwrap();
    fs::remove_file(&path).unwrap();
    let event = r#"{"deposit":["ann",500]}"#;
    assert!(matches!(site.answer(event), Err(JournalError::File(_))));
    assert!(matches!(site.answer(event), Err(JournalError::Ended)));
    assert_eq!(site.reply(), "");
    fs::remove_dir_all(path.parent().unwrap()).unwrap();
}

#[test]
fn a_journal_whose_length_changed_ends_and_is_opened_again() {
    let path = new_path("length");
    let mut site = Journal::open(&path, 0, CONFIG, 0, true).unwrap();
    let before = fs::read(&path).unwrap();
    fs::write(&path, &before[..9]).unwrap();
    let event = r#"{"deposit":["ann",500]}"#;
    let why = site.answer(event).unwrap_err();
    assert!(matches!(&why, JournalError::File(why) if why.raw_os_error() == Some(116)));
    assert_eq!(
        why.to_string(),
        "journal failed: it was replaced, or somebody else changed its length"
    );
    fs::write(&path, &before).unwrap();
    let mut again = Journal::open(&path, 0, CONFIG, 0, false).unwrap();
    again.answer(event).unwrap();
    assert!(matches!(site.answer(event), Err(JournalError::Ended)));
    fs::remove_dir_all(path.parent().unwrap()).unwrap();
}
