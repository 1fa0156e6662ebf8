//! Each function with what it has to return, and with what it has to refuse.
use luvazhimba::{
    base_subject, cut, fields, fields_of_mbox, message_ids, sent_date, threads, threads_of_mbox, Base, Fields, Ids, Message, Refusal, Row, VERSION,
};

const MBOX: &[u8] = b"\nFrom a@b Tue Mar  4 10:00:00 2003\nMessage-ID: <a@b>\n\nx\n\n\
    From c@d Tue Mar  4 11:00:00 2003\nReferences: <a@b>\n\n";
const MESSAGES: [Message; 2] = [Message { start: 35, end: 56, arrival: 1046772000 }, Message { start: 91, end: 109, arrival: 1046775600 }];

fn base(text: &str, is_reply: bool) -> Result<Base, Refusal> {
    Ok(Base { text: text.into(), is_reply })
}

fn row(depth: usize, place: usize) -> Row {
    Row { depth, place: Some(place) }
}

#[test]
fn base_subjects() {
    assert_eq!(base_subject(b"Re: [soc] Hello (fwd)"), base("hello", true));
    assert_eq!(base_subject(b"a\tB"), base("a b", false));
    assert_eq!(base_subject(b""), base("", false));
}

#[test]
fn ids() {
    let references = vec![b"c d@e".to_vec(), b"f@g".to_vec()];
    let message = b"Message-ID: <a@b>\nReferences: <\"c d\"@e> (x)\n <f@g>\n\n";
    assert_eq!(message_ids(message), Ok(Ids { own: Some(b"a@b".to_vec()), references }));
    assert_eq!(message_ids(b""), Ok(Ids { own: None, references: vec![] }));
    let many = (0..5_000).map(|it| format!(" <{it}@x>")).collect::<String>();
    assert_eq!(message_ids(format!("References:{many}\n\n").as_bytes()).map(|it| it.references.len()), Ok(5_000));
}

#[test]
fn sent_dates() {
    assert_eq!(sent_date(b"Date: Tue, 4 Mar 2003 10:00:00 +0100\n\n", 5), Ok(1046768400));
    assert_eq!(sent_date(b"", -1), Ok(-1));
    assert_eq!(sent_date(b"", i64::MAX), Err(Refusal::NoInstant));
}

#[test]
fn messages() {
    assert_eq!(cut(MBOX), Ok(MESSAGES.to_vec()));
    assert_eq!(cut(b""), Ok(vec![]));
    assert_eq!(cut(b"\n\nno\n"), Err(Refusal::NoMbox(2)));
    assert_eq!(cut(&b"From a@b Tue Mar  4 10:00:00 2003\n\n".repeat(1_000)).map(|it| it.len()), Ok(1_000));
}

fn said(subject: &str, author: &str, own: Option<&str>, references: &[&str], sent: i64, is_dated: bool) -> Fields {
    let bytes = |text: &str| text.as_bytes().to_vec();
    let references = references.iter().map(|it| bytes(it)).collect();
    Fields { subject: bytes(subject), author: bytes(author), own: own.map(bytes), references, sent, is_dated }
}

#[test]
fn fields_of_a_message() {
    let message = b"From: Anna\n <a@b>\nSubject: Re: Hello\nMessage-ID: <a@b>\nReferences: <c@d> <e@f>\nDate: Tue, 4 Mar 2003 10:00:00 +0100\n\nx\n";
    assert_eq!(fields(message, 5), Ok(said(" Re: Hello", " Anna <a@b>", Some("a@b"), &["c@d", "e@f"], 1046768400, true)));
    assert_eq!(fields(b"In-Reply-To: <a@b> <c@d>\n\n", 5), Ok(said("", "", None, &["a@b"], 5, false)));
    assert_eq!(fields(b"Date: Tue, 4 Mar 2003 10:00:00 +0100\n\n", 1046768400), Ok(said("", "", None, &[], 1046768400, true)));
    assert_eq!(fields(b"", i64::MAX), Err(Refusal::NoInstant));
    let many = (0..5_000).map(|it| format!(" <{it}@x>")).collect::<String>();
    assert_eq!(fields(format!("References:{many}\n\n").as_bytes(), 5).map(|it| it.references.len()), Ok(5_000));
}

#[test]
fn fields_of_messages() {
    let both = vec![said("", "", Some("a@b"), &[], 1046772000, false), said("", "", None, &["a@b"], 1046775600, false)];
    assert_eq!(fields_of_mbox(MBOX), Ok((MESSAGES.to_vec(), both)));
    assert_eq!(fields_of_mbox(b""), Ok((vec![], vec![])));
    assert_eq!(fields_of_mbox(b"\n\nno\n"), Err(Refusal::NoMbox(2)));
    let short = b"From a@b Tue Mar  4 10:00:00 2003\nSubject: x\n\n".repeat(1_000);
    let (messages, said) = fields_of_mbox(&short).unwrap();
    assert_eq!(Ok(messages), cut(&short));
    assert!(said.len() == 1_000 && said.iter().all(|it| it.subject == b" x"));
}

#[test]
fn rows() {
    assert_eq!(threads(MBOX, &MESSAGES, true), Ok(vec![row(0, 0), row(1, 1)]));
    assert_eq!(threads(MBOX, &[], true), Ok(vec![]));
    assert_eq!(threads(MBOX, &[Message { start: 0, end: MBOX.len() + 1, arrival: 5 }], true), Err(Refusal::Outside));
    assert_eq!(threads_of_mbox(MBOX, false), Ok(vec![row(0, 0), row(1, 1)]));
    assert!(matches!(threads_of_mbox(b"no\n", true), Err(Refusal::NoMbox(_))));
}

#[test]
fn the_version_is_that_of_the_library() {
    assert!(include_str!("../../luvazhimba.h").contains(&format!("#define LUV_VERSION \"{VERSION}\"")));
}
