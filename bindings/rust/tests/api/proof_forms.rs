//! Range proofs in serde's formats: JSON, RON and bincode.

use crate::draws::{numbered, reference, Draws};
use crate::range_proofs::forged;
use serde_json::{json, Value};
use yurewha::merklehash::DataHash;
use yurewha::own::{Node, RangeProof};

fn of_three() -> RangeProof {
    RangeProof::from_chunks(&reference(&[1, 2, 3]), 1..2).unwrap()
}

#[test]
fn a_proof_is_a_struct_of_chunks_and_levels() {
    let proof = of_three();
    let text = proof.to_json().unwrap();
    assert_eq!(serde_json::to_string(&proof).unwrap(), text);
    assert_eq!(serde_json::from_str::<RangeProof>(&text).unwrap(), proof);
    assert_eq!(
        serde_json::from_reader::<_, RangeProof>(text.as_bytes()).unwrap(),
        proof
    );
    let tree = serde_json::to_value(&proof).unwrap();
    assert_eq!(serde_json::from_value::<RangeProof>(tree).unwrap(), proof);
    let ron = ron::to_string(&proof).unwrap();
    assert!(
        ron.starts_with("(chunks:[(hash:\"") && ron.contains("levels:[(left:[(hash:\""),
        "{ron}"
    );
    assert_eq!(ron::from_str::<RangeProof>(&ron).unwrap(), proof);
    let number = |number: u64| number.to_le_bytes().to_vec();
    let list = |nodes: &[Node]| {
        let nodes = nodes
            .iter()
            .map(|(hash, size)| [hash.as_bytes(), &number(*size)].concat());
        [number(nodes.len() as u64), nodes.collect::<Vec<_>>().concat()].concat()
    };
    let chunks = reference(&[1, 2, 3]);
    let bytes = [list(&chunks[1..2]), number(1), list(&chunks[..1]), list(&chunks[2..])].concat();
    assert_eq!(bincode::serialize(&proof).unwrap(), bytes);
    assert_eq!(bincode::deserialize::<RangeProof>(&bytes).unwrap(), proof);
}

#[test]
fn drawn_proofs_are_read_back() {
    let mut draws = Draws(22);
    for _ in 0..200 {
        let count = 1 + draws.below(200);
        let nodes = draws.nodes(count);
        let first = draws.below(count);
        let proof = RangeProof::from_chunks(&nodes, first..first + 1 + draws.below(count - first)).unwrap();
        let text = serde_json::to_string(&proof).unwrap();
        assert_eq!(text, proof.to_json().unwrap());
        assert_eq!(serde_json::from_str::<RangeProof>(&text).unwrap(), proof);
        let bytes = bincode::serialize(&proof).unwrap();
        assert_eq!(bincode::deserialize::<RangeProof>(&bytes).unwrap(), proof);
        assert_eq!(
            ron::from_str::<RangeProof>(&ron::to_string(&proof).unwrap()).unwrap(),
            proof
        );
    }
}

// Rules of the form are named in brackets, since the format adds the place; the others with their text.
fn names_rule(error: &str, rule: u8) -> bool {
    match rule {
        1..=4 => error.contains(&format!("(rule {rule})")),
        _ => error.contains(&format!("invalid range proof: rule {rule}: ")),
    }
}

#[test]
fn a_forged_value_is_refused_with_the_rule_in_the_text() {
    for (rule, text) in forged() {
        let error = serde_json::from_str::<RangeProof>(&text).unwrap_err().to_string();
        assert!(names_rule(&error, rule), "{text}: {error}");
        if let Ok(value) = serde_json::from_str::<Value>(&text) {
            let error = serde_json::from_value::<RangeProof>(value).unwrap_err().to_string();
            assert!(names_rule(&error, rule), "{text}: {error}");
        }
    }
    let mut value = serde_json::to_value(of_three()).unwrap();
    value["levels"][0]["right"] = json!([[1, 2]]);
    let error = serde_json::from_value::<RangeProof>(value).unwrap_err().to_string();
    assert!(names_rule(&error, 4), "{error}");
}

#[test]
fn members_may_come_in_any_order_with_others_and_only_once() {
    let text = of_three().to_json().unwrap();
    let (chunks, levels) = text[1..text.len() - 1].split_once(r#","levels""#).unwrap();
    let turned = format!(r#"{{"levels"{levels},"more":[{{}}],{chunks}}}"#);
    assert_eq!(serde_json::from_str::<RangeProof>(&turned).unwrap(), of_three());
    let left = r#""left":["#;
    for twice in [
        format!(r#"{{{chunks},{chunks},"levels"{levels}}}"#),
        format!(r#"{{{chunks},"levels"{levels},"levels"{levels}}}"#),
        text.replace(left, &format!(r#""left":[],{left}"#)),
    ] {
        let error = serde_json::from_str::<RangeProof>(&twice).unwrap_err().to_string();
        assert!(error.starts_with("duplicate field `"), "{error}");
    }
}

#[test]
fn bytes_that_are_cut_off_or_claim_too_much_are_refused() {
    let proof = RangeProof::from_chunks(&numbered(0..28), 5..7).unwrap();
    let bytes = bincode::serialize(&proof).unwrap();
    for length in 0..bytes.len() {
        assert!(bincode::deserialize::<RangeProof>(&bytes[..length]).is_err());
    }
    assert!(bincode::deserialize::<RangeProof>(&u64::MAX.to_le_bytes()).is_err());
    // A proof without chunks.
    let error = bincode::deserialize::<RangeProof>(&[0; 16]).unwrap_err().to_string();
    assert!(names_rule(&error, 5), "{error}");
    // A side of nine nodes.
    let node = (DataHash::marker(), 1_u64);
    let level = (vec![node; 9], Vec::<Node>::new());
    let bytes = bincode::serialize(&(vec![node], vec![level])).unwrap();
    let error = bincode::deserialize::<RangeProof>(&bytes).unwrap_err().to_string();
    assert!(names_rule(&error, 7) && !error.contains("JSON"), "{error}");
}
