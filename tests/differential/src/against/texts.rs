//! The texts, as the crate shows them.

use super::requests::auth_type;
use crate::held::{refused, Expected, Held};
use ghjalvestru::sys;
use oracle_core::app::get_channel_access::{ChannelAccessMode, ChannelPrivilegeLevel};
use oracle_core::app::get_channel_info::{
    ChannelMediumType, ChannelProtocolType, ChannelSessionSupport,
};
use oracle_core::connection::Channel;

pub fn hold(all: &mut Vec<Held>) {
    all.push(each("channel_text", true, channel, sys::channel_text));
    all.push(each(
        "mode_text",
        false,
        shown::<ChannelAccessMode>,
        sys::mode_text,
    ));
    all.push(each(
        "limit_text",
        false,
        shown::<ChannelPrivilegeLevel>,
        sys::limit_text,
    ));
    all.push(each(
        "medium_text",
        false,
        shown::<ChannelMediumType>,
        sys::medium_text,
    ));
    all.push(each(
        "protocol_text",
        false,
        shown::<ChannelProtocolType>,
        sys::protocol_text,
    ));
    let support = shown::<ChannelSessionSupport>;
    all.push(each(
        "session_support_text",
        false,
        support,
        sys::session_support_text,
    ));
    all.push(each(
        "auth_type_name",
        true,
        auth_type_name,
        sys::auth_type_name,
    ));
}

/// On all numbers.
fn each(
    name: &'static str,
    refuses: bool,
    expected: fn(u8) -> Expected,
    call: fn(u8, &mut [u8]) -> u64,
) -> Held {
    let mut held = Held::new(name, refuses);
    for number in 0..=u8::MAX {
        held.writes(&[number], &expected(number), |given, out| {
            call(given[0], out)
        });
    }
    held
}

fn shown<T: From<u8> + ToString>(number: u8) -> Expected {
    Ok(T::from(number).to_string().into_bytes())
}

fn channel(number: u8) -> Expected {
    let channel = Channel::new(number).ok_or(refused(6))?;
    Ok(channel.to_string().into_bytes())
}

fn auth_type_name(number: u8) -> Expected {
    Ok(format!("{:?}", auth_type(number)?).into_bytes())
}
