//! Sessions in serde's formats: JSON, RON and bincode.

use crate::draws::{reference, Draws};
use crate::saving::{assert_restored, drawn_session};
use serde_json::{json, Value};
use yurewha::merklehash::{MerkleHash, MerkleHashSubtree};
use yurewha::own::Session;

#[test]
fn a_session_is_a_struct_of_runs_and_known_hashes() {
    let chunks = reference(&[2]);
    let mut session = Session::new();
    session.put(7, &chunks).unwrap();
    session.keep_hashes(&[MerkleHash::default()]).unwrap();
    let [subtree, hash] = [
        serde_json::to_string(&MerkleHashSubtree::from_chunks(false, &chunks, false)),
        serde_json::to_string(&chunks[0].0),
    ]
    .map(Result::unwrap);
    let text = format!(r#"{{"runs":[{{"first":7,"end":8,"chunks":{subtree}}}],"known_hashes":[[0,0,0,0],{hash}]}}"#);
    assert_eq!(serde_json::to_string(&session).unwrap(), text);
    let subtree = bincode::serialize(&MerkleHashSubtree::from_chunks(false, &chunks, false)).unwrap();
    let numbers = |numbers: &[u64]| {
        numbers
            .iter()
            .flat_map(|number| number.to_le_bytes())
            .collect::<Vec<_>>()
    };
    let bytes = [
        numbers(&[1, 7, 8]),
        subtree,
        numbers(&[2, 0, 0, 0, 0]),
        chunks[0].0.into(),
    ]
    .concat();
    assert_eq!(bincode::serialize(&session).unwrap(), bytes);
    let empty = r#"{"runs":[],"known_hashes":[]}"#;
    assert_eq!(serde_json::to_string(&Session::new()).unwrap(), empty);
}

#[test]
fn drawn_sessions_are_read_back() {
    let mut draws = Draws(17);
    for _ in 0..100 {
        let session = drawn_session(&mut draws);
        let text = serde_json::to_string(&session).unwrap();
        let restored: Session = serde_json::from_str(&text).unwrap();
        // What is restored is written equally.
        assert_eq!(serde_json::to_string(&restored).unwrap(), text);
        assert_restored(&session, restored, &mut draws);
        let tree = serde_json::to_value(&session).unwrap();
        assert_restored(&session, serde_json::from_value(tree).unwrap(), &mut draws);
        let bytes = bincode::serialize(&session).unwrap();
        assert_restored(&session, bincode::deserialize(&bytes).unwrap(), &mut draws);
        let text = ron::to_string(&session).unwrap();
        assert_restored(&session, ron::from_str(&text).unwrap(), &mut draws);
    }
}

// Two runs, at 2 and 3 and at 7, as JSON.
fn two_runs() -> Value {
    let mut session = Session::new();
    session.put(7, &reference(&[3])).unwrap();
    session.put(2, &reference(&[1, 2])).unwrap();
    serde_json::to_value(&session).unwrap()
}

// The error of reading a value.
fn error_of(value: &Value) -> String {
    serde_json::from_str::<Session>(&value.to_string())
        .unwrap_err()
        .to_string()
}

#[test]
fn a_forged_run_is_refused_by_its_number() {
    let unfit = "has no position, is marked at an end, or leaves no gap after the runs before it";
    let great = MerkleHashSubtree::from_chunks(false, &[(MerkleHash::default(), u64::MAX)], false);
    for (at, forged, error) in [
        ("/runs/0/first", json!(4), format!("run 0 {unfit}")),
        ("/runs/0/first", json!(9), format!("run 0 {unfit}")),
        ("/runs/0/end", json!(7), format!("run 1 {unfit}")),
        ("/runs/0/end", json!(u64::MAX), format!("run 1 {unfit}")),
        ("/runs/1/first", json!(3), format!("run 1 {unfit}")),
        ("/runs/1/first", json!(0), format!("run 1 {unfit}")),
        ("/runs/1/end", json!(7), format!("run 1 {unfit}")),
        ("/runs/1/chunks/at_start", json!(true), format!("run 1 {unfit}")),
        ("/runs/1/chunks/at_end", json!(true), format!("run 1 {unfit}")),
        ("/runs/1/chunks", json!(great), "run 1: size overflow".to_owned()),
        (
            "/runs/1/chunks/levels/0/0",
            json!(2),
            "invalid subtree: rule 6: ".to_owned(),
        ),
        ("/runs/1/chunks/nodes/0/size", json!(-1), "(rule 3)".to_owned()),
        ("/runs/1/chunks", json!(null), "(rule 1)".to_owned()),
        ("/runs/1/first", json!(-1), "invalid value: integer `-1`".to_owned()),
        ("/runs/1", json!({}), "missing field `first`".to_owned()),
        ("/runs", json!(null), "a sequence of runs as `runs`".to_owned()),
        (
            "/known_hashes",
            json!(7),
            "a sequence of hashes as `known_hashes`".to_owned(),
        ),
        ("/known_hashes/1", json!([1, 2, 3]), "invalid length 3".to_owned()),
        ("", json!({"runs": []}), "missing field `known_hashes`".to_owned()),
        ("", json!({"known_hashes": []}), "missing field `runs`".to_owned()),
        (
            "",
            json!(null),
            "invalid type: null, expected struct Session".to_owned(),
        ),
    ] {
        let mut value = two_runs();
        *value.pointer_mut(at).unwrap() = forged;
        let told = error_of(&value);
        assert!(told.contains(&error), "{at}: {told}");
        let told = serde_json::from_value::<Session>(value).unwrap_err().to_string();
        assert!(told.contains(&error), "{at}: {told}");
    }
}

#[test]
fn members_may_come_in_any_order_with_others_and_only_once() {
    let text = r#"{"more":[1],"known_hashes":[[1,2,3,4]],"runs":[]}"#;
    let session: Session = serde_json::from_str(text).unwrap();
    assert_eq!(session.known_hashes().unwrap(), [MerkleHash::from([1, 2, 3, 4])]);
    for twice in [r#"{"runs":[],"runs":[]}"#, r#"{"known_hashes":[],"known_hashes":[]}"#] {
        let error = serde_json::from_str::<Session>(twice).unwrap_err().to_string();
        assert!(error.starts_with("duplicate field `"), "{error}");
    }
}

#[test]
fn bytes_that_are_cut_off_or_claim_too_much_are_refused() {
    let session: Session = serde_json::from_value(two_runs()).unwrap();
    let bytes = bincode::serialize(&session).unwrap();
    for length in 0..bytes.len() {
        assert!(bincode::deserialize::<Session>(&bytes[..length]).is_err());
    }
    let claim = u64::MAX.to_le_bytes();
    assert!(bincode::deserialize::<Session>(&claim).is_err());
    assert!(bincode::deserialize::<Session>(&[[0; 8], claim].concat()).is_err());
}
