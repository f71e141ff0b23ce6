//! What a controller said of a channel: its access, and the suites of a list that is collected.
use ghjalvestru::app::ChannelAccess;
use ghjalvestru::connection::Channel;
use ghjalvestru::{ChannelCollector, Error};

fn main() -> Result<(), Error> {
    let access = ChannelAccess::parse(&[0x22, 0x04])?;
    println!("{}, limit {}", access.access_mode, access.privilege_level_limit);

    let mut collector = ChannelCollector::new(Channel::new(1)?);
    collector.answer(0, &[0x01, 0xC0, 0x03, 0x01, 0x41, 0x81])?;
    for suite in collector.suites()? {
        println!("suite {}", suite.id());
    }
    Ok(())
}
