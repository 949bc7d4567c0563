//! Values that are taken, refused and of no such type.
use rbbank::{AnswerError, Bank, Journal, JournalError, Refusal, Site};
use rbbank_serde::{Ask, AskError};
use serde::{Deserialize, Serialize};
use serde_json::{json, Value};

const CONFIG: &str = r#"{"accounts":[["ann",0]],"sites":2,"version":1}"#;

#[derive(Serialize)]
#[serde(rename_all = "lowercase")]
enum Event {
    Deposit(String, u64),
    Pass(u8),
    Resend(u64),
}

#[derive(Debug, Deserialize, PartialEq)]
struct Answer {
    reply: Reply,
    sends: Vec<Value>,
}

#[derive(Debug, Deserialize, PartialEq)]
#[serde(untagged)]
enum Reply {
    Made { kind: String, name: String },
    Resent { resent: u64 },
    Refused { refused: u8 },
}

#[derive(Debug, Deserialize)]
struct Balance {
    balance: u64,
}

#[test]
fn a_site_is_asked() {
    let mut site = Site::open(0, CONFIG).unwrap();
    let made: Answer = site.ask(&Event::Deposit("ann".to_owned(), 500)).unwrap();
    let reply = Reply::Made {
        kind: "deposit".to_owned(),
        name: "B0.1".to_owned(),
    };
    assert_eq!((made.reply, made.sends.len()), (reply, 1));
    let refused: Answer = site.ask(&Event::Pass(0)).unwrap();
    assert_eq!(refused.reply, Reply::Refused { refused: 20 });
    let again: Answer = site.ask(&Event::Resend(9)).unwrap();
    assert_eq!(again.reply, Reply::Resent { resent: 1 });
    let mut other = Site::open(1, CONFIG).unwrap();
    let taken: Value = other.ask(&made.sends[0]).unwrap();
    assert_eq!(taken["then"], json!([{"applied": "B0.1"}]));
}

#[test]
fn a_bank_is_asked() {
    let mut bank = Bank::open(CONFIG).unwrap();
    let balance: Balance = bank.ask(&json!({"balance": "ann", "site": 0})).unwrap();
    assert_eq!(balance.balance, 0);
    let refused = bank.ask::<Balance>(&json!({"balance": "eve", "site": 0}));
    assert_eq!(
        refused.unwrap_err().to_string(),
        "refused 1: unknown account"
    );
    let other = bank.ask::<Balance>(&json!({"deposit": ["ann", 5], "site": 0}));
    assert!(matches!(other, Err(AskError::AnotherAnswer(_))));
    let bad = bank.ask::<Value>(&json!({"deposit": ["ann", 0.5], "site": 0}));
    let Err(AskError::NotAnswered(AnswerError::BadLine(why))) = bad else {
        panic!("taken");
    };
    assert_eq!(why.column, Some(19));
    assert!(matches!(
        bank.ask::<Value>(&[Some(f64::NAN)]),
        Err(AskError::NotAnswered(_))
    ));
}

#[test]
fn a_journal_is_asked() {
    let path = std::env::temp_dir().join(format!("rbbank-serde-{}", std::process::id()));
    let mut site = Journal::open(&path, 0, CONFIG, 0, true).unwrap();
    let refused = site.ask::<Answer>(&Event::Pass(0)).unwrap();
    assert_eq!(
        refused.reply,
        Reply::Refused {
            refused: Refusal::NoSite.number()
        }
    );
    assert!(matches!(
        site.ask::<Answer>(&json!({})),
        Err(AskError::NotAnswered(JournalError::BadLine(_)))
    ));
    std::fs::remove_file(path).unwrap();
}
