//! tokio-postgres over a socket of the loopback, for figures beside those of main.rattle: it asks so many times SELECT 1,
//! or once for so many rows of one field of 7 digits, as simple queries. The words are the port, `queries` or `rows`, and
//! the count.
use std::env;
use tokio_postgres::{Error, NoTls, SimpleQueryMessage};

async fn load(port: &str, what: &str, count: u32) -> Result<u64, Error> {
    let text = format!("host=127.0.0.1 port={port} user=bench dbname=postgres");
    let (client, connection) = tokio_postgres::connect(&text, NoTls).await?;
    tokio::spawn(connection);
    let (query, times) = if what == "rows" {
        (format!("SELECT 1000000 + n FROM generate_series(1, {count}) AS s(n)"), 1)
    } else {
        ("SELECT 1".to_string(), count)
    };
    let mut rows = 0;
    for _ in 0..times {
        for message in client.simple_query(&query).await? {
            rows += u64::from(matches!(message, SimpleQueryMessage::Row(_)));
        }
    }
    Ok(rows)
}

fn main() {
    let words: Vec<String> = env::args().collect();
    let count: u32 = words[3].parse().expect("a count");
    let runtime = tokio::runtime::Builder::new_current_thread().enable_io().build().expect("a runtime");
    let rows = runtime.block_on(load(&words[1], &words[2], count)).expect("an answer");
    assert_eq!(rows, u64::from(count));
}
