//! Of a cluster's configuration what a client needs.
use crate::json::{parse, Json};
use std::collections::BTreeMap;
use std::fmt;
use std::net::{Ipv4Addr, SocketAddrV4};

/// Where the centres of a cluster are, numbered from 1, and how many numbers its records have.
#[derive(Debug, Clone, PartialEq, Eq)]
pub struct Configuration {
    pub hosts: Vec<Ipv4Addr>,
    pub port: u16,
    /// For each number of a record its least and its greatest value.
    pub bounds: Vec<(i64, i64)>,
}

/// The member of a configuration that is missing or not as it should be, or the whole text.
#[derive(Debug, Clone, Copy, PartialEq, Eq)]
pub struct ConfigurationError(pub &'static str);

impl fmt::Display for ConfigurationError {
    fn fmt(&self, out: &mut fmt::Formatter<'_>) -> fmt::Result {
        write!(out, "configuration: {} is not as it should be", self.0)
    }
}

impl std::error::Error for ConfigurationError {}

type Members = BTreeMap<String, Json>;

fn list<'a>(members: &'a Members, name: &'static str) -> Result<&'a [Json], ConfigurationError> {
    match members.get(name) {
        Some(Json::List(values)) => Ok(values),
        _ => Err(ConfigurationError(name)),
    }
}

fn host_of(value: &Json) -> Option<Ipv4Addr> {
    match value {
        Json::Text(text) => text.parse().ok(),
        _ => None,
    }
}

fn pair_of(value: &Json) -> Option<(i64, i64)> {
    match value {
        Json::List(pair) => match pair.as_slice() {
            [Json::Whole(low), Json::Whole(high)] if low <= high => Some((*low, *high)),
            _ => None,
        },
        _ => None,
    }
}

impl Configuration {
    /// Reads a configuration. Members that a client does not need are passed over.
    pub fn parse(text: &str) -> Result<Configuration, ConfigurationError> {
        let Some(Json::Object(members)) = parse(text) else {
            return Err(ConfigurationError("the text"));
        };
        let hosts: Option<Vec<_>> = list(&members, "hosts")?.iter().map(host_of).collect();
        let bounds: Option<Vec<_>> = list(&members, "bounds")?.iter().map(pair_of).collect();
        let port = match members.get("port") {
            Some(Json::Whole(port)) if (1..=65_000).contains(port) => *port as u16,
            _ => return Err(ConfigurationError("port")),
        };
        let hosts = hosts.filter(|hosts| (1..=9).contains(&hosts.len())).ok_or(ConfigurationError("hosts"))?;
        let bounds = bounds.filter(|bounds| (1..=4).contains(&bounds.len())).ok_or(ConfigurationError("bounds"))?;
        Ok(Configuration { hosts, port, bounds })
    }

    /// Whether a centre has this number.
    pub fn has(&self, centre: u8) -> bool {
        (1..=self.hosts.len()).contains(&usize::from(centre))
    }

    fn address(&self, centre: u8, offset: u16) -> SocketAddrV4 {
        SocketAddrV4::new(self.hosts[usize::from(centre) - 1], self.port + offset + u16::from(centre))
    }

    /// Where a centre of the cluster takes requests.
    pub fn asked(&self, centre: u8) -> SocketAddrV4 {
        self.address(centre, 16)
    }

    /// Where a centre of the cluster sends its answers.
    pub fn answered(&self, centre: u8) -> SocketAddrV4 {
        self.address(centre, 32)
    }
}

#[cfg(test)]
mod tests {
    use super::*;

    const ONE: &str = r#"{"centres":1,"bounds":[[0,1000]],"hosts":["127.0.0.1"],"port":9000,"wait":20}"#;

    #[test]
    fn ports_are_as_the_page_says() {
        let read = Configuration::parse(ONE).unwrap();
        assert_eq!((read.asked(1).port(), read.answered(1).port(), read.bounds), (9017, 9033, vec![(0, 1000)]));
    }

    #[test]
    fn what_is_refused() {
        for (from, to, name) in [("9000", "0", "port"), ("127.0.0.1", "here", "hosts"), ("[0,1000]", "[2,1]", "bounds"), ("{", "", "the text")] {
            assert_eq!(Configuration::parse(&ONE.replace(from, to)), Err(ConfigurationError(name)));
        }
    }
}
