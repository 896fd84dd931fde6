//! Tags of messages: `tags LENGTH COUNT` makes so many tags of messages of so many bytes under one key, each message's first bytes those of
//! the tag before, and prints the last one's first byte.
#![tactic(auto)]

use anyhow::{Context, Result, bail};
use hmac::{Key, TAG};
use std::env;

/// How many bytes a message has at most.
const MOST: usize = 65536;

/// The tag of the first bytes of a message.
fn tag_of(key: &Key, message: &[u8], length: usize) -> [u8; TAG] {
    key.tag(&message[..length.min(message.len())], &[], &[])
}

/// Puts a tag before a message.
fn put(message: &mut [u8], tag: &[u8]) {
    if tag.len() <= message.len() {
        message[..tag.len()].copy_from_slice(tag);
    }
}

/// The last of so many tags.
fn last_tag(length: usize, count: u32) -> [u8; TAG] {
    let mut message = [0; MOST];
    let key = Key::new(&[7; 32]);
    let mut tag = [0; TAG];
    for _ in 0..count {
        tag = tag_of(&key, &message, length);
        put(&mut message, &tag);
    }
    tag
}

fn main(rt: HostRuntime) -> Result<()> {
    let mut words = env::args(&rt)?;
    let _program = words.next();
    let (Some(length), Some(count)) = (words.next(), words.next()) else {
        bail!("usage: tags LENGTH COUNT");
    };
    let length: usize = length.as_str().parse().context("LENGTH")?;
    let count: u32 = count.as_str().parse().context("COUNT")?;
    let tag = last_tag(length, count);
    println!(rt; "{}", tag[0])?;
    Ok(())
}
