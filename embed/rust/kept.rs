//! A device in JSON, by the crate's feature `serde`, and taken from there again: `packages` builds it over the packed crate.
use katara::{Type, Value};
use serde::{Deserialize, Serialize};

#[derive(Serialize, Deserialize)]
struct Device {
    number: u32,
    #[serde(with = "katara::as_text")]
    share: Vec<u8>,
    /// What it will do next.
    waiting: Vec<(String, Vec<Value>)>,
}

fn main() -> Result<(), Box<dyn std::error::Error>> {
    let paths: Vec<String> = std::env::args().collect();
    let mut cart = Type::open(&std::fs::read(&paths[1])?, &std::fs::read(&paths[2])?)?;
    let mut here = cart.replica(1)?;
    here.act("add", &["milk".into(), 5.into()])?;
    let waiting = vec![("add".to_owned(), vec!["eggs".into(), 12.into()])];
    let text = serde_json::to_string(&Device { number: 1, share: here.share()?, waiting })?;
    assert!(text.starts_with(r#"{"number":1,"share":"[\"state\",1,1,1,"#), "{text}");
    let device: Device = serde_json::from_str(&text)?;
    let mut there = cart.replica(2)?;
    there.restore_share(&device.share)?;
    for (name, values) in &device.waiting {
        there.act(name, values)?;
    }
    let values: Vec<Value> = serde_json::from_str(r#"[true,-1,9223372036854775807,"a"]"#)?;
    assert_eq!(values, [true.into(), (-1).into(), i64::MAX.into(), Value::from("a")]);
    assert!(serde_json::from_str::<Value>("1.5").is_err() && serde_json::from_str::<Value>("[1]").is_err());
    println!("count \"milk\" = {}", there.ask("count", &["milk".into()])?);
    println!("count \"eggs\" = {}", there.ask("count", &["eggs".into()])?);
    Ok(())
}
