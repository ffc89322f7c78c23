// Does what the lines on standard input say with a class that `emit` wrote; drivers.py appends the classes.
use std::collections::HashMap;

trait Replica: Sized + Clone + PartialEq {
    fn fresh(number: u8) -> Self;
    fn act(&mut self, at: usize, a: &[&str]);
    fn answer(&self, at: usize, a: &[&str]) -> String;
    fn join(&mut self, other: &Self) -> String;
    fn less(&self, known: &Self) -> Self;
    fn text(&self) -> String;
    fn all_keys(&self) -> String;
    fn read(text: &str) -> Option<Self>;
    fn shared(&self) -> Result<String, String>;
    fn marked(&self) -> Result<String, String>;
    fn beyond(&self, known: &Self) -> Result<String, String>;
    fn join_packet(&mut self, text: &str) -> Result<(), String>;
    fn read_share(text: &str) -> Result<Self, String>;
}

/// The word of a problem.
fn problem(error: impl std::fmt::Debug) -> String {
    format!("{error:?}").to_lowercase()
}

/// A text in quotes, or why there is none.
fn quoted(told: Result<String, String>) -> String {
    told.map_or_else(|problem| problem, |text| format!("{text:?}"))
}

fn took<R: Replica>(it: &mut R, text: &str) -> String {
    let before = it.shared();
    match it.join_packet(text) {
        Ok(()) => quoted(it.shared()),
        Err(problem) if it.shared() == before => problem,
        Err(_) => "a packet that is refused changes something".to_string(),
    }
}

fn plain<R: Replica>(it: &R) -> String {
    let (mut bare, mut whole) = (R::read(&it.text()).unwrap(), it.clone());
    whole.join(&bare);
    let mut words = vec![quoted(bare.shared()), quoted(bare.marked()), quoted(bare.beyond(it))];
    words.push(bare.join_packet(&it.beyond(it).unwrap()).unwrap_err());
    words.push(quoted(whole.shared()));
    words.join(" ")
}

fn unhexed(word: &str) -> String {
    let byte = |place: usize| u8::from_str_radix(&word[2 * place..2 * place + 2], 16).unwrap();
    String::from_utf8((0..word.len() / 2).map(byte).collect()).unwrap()
}

fn line(words: &[String]) -> String {
    format!("[{}]", words.join(","))
}

fn taken<R: Replica>(it: &mut R, packet: &R, shipped: &R) -> String {
    let (mut now, mut old, before) = (it.clone(), R::read(&it.text()).unwrap(), it.text());
    now.join(&R::read(&packet.less(it).text()).unwrap());
    old.join(&packet.less(shipped));
    let copy = it.clone();
    let changed = it.join(packet);
    let stays = copy.text() == before && (copy == *it) == (before == it.text());
    if now == *it && old == *it && stays { changed } else { "a difference isn't enough".to_string() }
}

fn drive<R: Replica>() {
    let (mut replicas, mut shipped): (Vec<R>, Vec<R>) = (Vec::new(), Vec::new());
    let mut packets: HashMap<String, R> = HashMap::new();
    let (mut kept, mut told): (HashMap<usize, R>, Vec<String>) = (HashMap::new(), Vec::new());
    for read in std::io::stdin().lines() {
        let read = read.unwrap();
        let words: Vec<&str> = read.split(' ').collect();
        let at = |place: usize| words[place].parse::<usize>().unwrap();
        match words[0] {
            "begin" => {
                replicas = (1..=at(1)).map(|number| R::fresh(number as u8)).collect();
                shipped = replicas.clone();
            }
            "do" => replicas[at(1) - 1].act(at(2), &words[3..]),
            "ask" => println!("{}", replicas[at(1) - 1].answer(at(2), &words[3..])),
            "ship" => {
                shipped[at(1) - 1] = R::read(&replicas[at(1) - 1].text()).unwrap();
                packets.insert(words[2].to_string(), shipped[at(1) - 1].clone());
            }
            "deliver" => println!("{}", taken(&mut replicas[at(2) - 1], &packets[words[1]], &shipped[at(2) - 1])),
            "show" => println!("{}\n{}", replicas[at(1) - 1].text().trim_end(), replicas[at(1) - 1].all_keys()),
            "shares" => {
                replicas = (1..=at(1)).map(|number| R::fresh(number as u8)).collect();
                kept = HashMap::from([(0, R::fresh(32))]);
                told.clear();
            }
            "share" => println!("{}", quoted(replicas[at(1) - 1].shared())),
            "keep" => drop(kept.insert(at(2), R::read_share(&replicas[at(1) - 1].shared().unwrap()).unwrap())),
            "packet" => {
                told.push(replicas[at(1) - 1].beyond(&kept[&at(2)]).unwrap());
                println!("{:?}", told[told.len() - 1]);
            }
            "take" => println!("{}", took(&mut replicas[at(1) - 1], &told[at(2)])),
            "spoiled" => println!("{}", took(&mut replicas[at(1) - 1], &unhexed(words[2]))),
            "restart" => {
                replicas[at(1) - 1] = kept[&at(2)].clone();
                println!("{}", quoted(replicas[at(1) - 1].shared()));
            }
            "reshare" => println!("{}", quoted(R::read_share(&unhexed(words[1])).and_then(|it| it.shared()))),
            "plain" => println!("{}", plain(&replicas[at(1) - 1])),
            _ => {
                let it = R::read(&unhexed(words[1]));
                println!("{}", it.map_or("refused".to_string(), |it| it.text().trim_end().to_string()));
            }
        }
    }
}

