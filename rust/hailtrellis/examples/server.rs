//! A server loop around one engine: a thread for each desk, one line for each call, a mutex around each call alone.
//!
//! `cargo run --example server` opens the small map, serves it on a local port and lets four desks play against it.
//! `cargo run --example server -- MAP PORT` serves a map of yours until it is stopped.
//!
//! Lines: `add VAN FROM TO OFFSET`, `move VAN FROM TO OFFSET`, `remove VAN`, `claim VAN STAMP DESK`, `release VAN DESK`,
//! `question VERTEX K`. Each gets one line: `ok STAMP`, `no NUMBER REASON`, or `list VAN:DISTANCE:STAMP ..`.

use hailtrellis::{Desk, Engine, Listed, Refusal, Stamp, Van, Vertex};
use std::io::{BufRead, BufReader, Write};
use std::net::{TcpListener, TcpStream};
use std::sync::{Arc, Mutex};
use std::thread;
use std::time::Duration;

fn main() -> std::io::Result<()> {
    let arguments: Vec<String> = std::env::args().skip(1).collect();
    match arguments.as_slice() {
        [] => play(),
        [map, port] => {
            let engine = open(&std::fs::read(map)?)?;
            let port = port.parse().map_err(std::io::Error::other)?;
            serve(TcpListener::bind(("127.0.0.1", port))?, engine)
        }
        _ => Err(std::io::Error::other("usage: server [MAP PORT]")),
    }
}

fn open(map: &[u8]) -> std::io::Result<Arc<Mutex<Engine>>> {
    let engine = Engine::open(map, 0).map_err(std::io::Error::other)?;
    Ok(Arc::new(Mutex::new(engine)))
}

/// The server loop: a thread for each connection.
fn serve(listener: TcpListener, engine: Arc<Mutex<Engine>>) -> std::io::Result<()> {
    for connection in listener.incoming() {
        let engine = Arc::clone(&engine);
        let connection = connection?;
        thread::spawn(move || attend(connection, &engine));
    }
    Ok(())
}

/// Serves one connection. While the line of a person is awaited, nothing is held.
fn attend(connection: TcpStream, engine: &Mutex<Engine>) -> std::io::Result<()> {
    let mut writer = connection.try_clone()?;
    for line in BufReader::new(connection).lines() {
        let answer = answer(&line?, engine);
        writeln!(writer, "{answer}")?;
    }
    Ok(())
}

/// Makes one call. The guard lives for that call and no longer.
fn answer(line: &str, engine: &Mutex<Engine>) -> String {
    let mut words = line.split_whitespace();
    let name = words.next().unwrap_or("");
    let numbers: Option<Vec<u32>> = words.map(|word| word.parse().ok()).collect();
    let Some(numbers) = numbers else {
        return "bad".to_string();
    };
    let call = |f: &dyn Fn(&mut Engine) -> Result<Stamp, Refusal>| {
        let stamp = f(&mut engine.lock().expect("no call panics"));
        stamp.map(|stamp| format!("ok {stamp}"))
    };
    let answer = match (name, numbers.as_slice()) {
        ("add", &[van, from, to, offset]) => {
            call(&|e| e.add(Van(van), Vertex(from), Vertex(to), offset))
        }
        ("move", &[van, from, to, offset]) => {
            call(&|e| e.move_van(Van(van), Vertex(from), Vertex(to), offset))
        }
        ("remove", &[van]) => call(&|e| e.remove(Van(van))),
        ("claim", &[van, stamp, desk]) => call(&|e| e.claim(Van(van), Stamp(stamp), Desk(desk))),
        ("release", &[van, desk]) => call(&|e| e.release(Van(van), Desk(desk))),
        ("question", &[vertex, k]) => {
            let list = engine
                .lock()
                .expect("no call panics")
                .question(Vertex(vertex), k);
            list.map(|list| written(&list))
        }
        _ => return "bad".to_string(),
    };
    answer.unwrap_or_else(|refusal| format!("no {} {refusal}", refusal.number()))
}

fn written(list: &[Listed]) -> String {
    let mut line = "list".to_string();
    for listed in list {
        line += &format!(" {}:{}:{}", listed.van, listed.distance, listed.stamp);
    }
    line
}

/// Serves the small map on a free local port and lets four desks ask, think and claim.
fn play() -> std::io::Result<()> {
    let listener = TcpListener::bind("127.0.0.1:0")?;
    let address = listener.local_addr()?;
    let engine = open(&hailtrellis::small_map())?;
    thread::spawn(move || serve(listener, engine));

    let mut gateway = Client::connect(address)?;
    for (van, place) in ["2 3 1", "3 4 2", "0 1 0"].iter().enumerate() {
        println!("gateway: {}", gateway.ask(&format!("add {van} {place}"))?);
    }
    let desks: Vec<_> = (1..=4)
        .map(|desk| thread::spawn(move || sit_at(desk, address)))
        .collect();
    for desk in desks {
        desk.join().expect("a desk panicked")?;
    }
    Ok(())
}

/// A desk with one call for help: asks, thinks, claims, and asks again if the van was taken meanwhile.
fn sit_at(desk: u32, address: std::net::SocketAddr) -> std::io::Result<()> {
    let mut server = Client::connect(address)?;
    loop {
        let list = server.ask("question 0 3")?;
        let Some(first) = list.split_whitespace().nth(1) else {
            println!("desk {desk}: nobody is free");
            return Ok(());
        };
        thread::sleep(Duration::from_millis(10 * desk as u64));
        let shown: Vec<&str> = first.split(':').collect();
        let answer = server.ask(&format!("claim {} {} {desk}", shown[0], shown[2]))?;
        println!("desk {desk}: van {} at {}: {answer}", shown[0], shown[1]);
        if answer.starts_with("ok") {
            return Ok(());
        }
    }
}

/// The other end of a connection.
struct Client {
    reader: BufReader<TcpStream>,
    writer: TcpStream,
}

impl Client {
    fn connect(address: std::net::SocketAddr) -> std::io::Result<Client> {
        let writer = TcpStream::connect(address)?;
        let reader = BufReader::new(writer.try_clone()?);
        Ok(Client { reader, writer })
    }

    fn ask(&mut self, line: &str) -> std::io::Result<String> {
        writeln!(self.writer, "{line}")?;
        let mut answer = String::new();
        self.reader.read_line(&mut answer)?;
        Ok(answer.trim_end().to_string())
    }
}
