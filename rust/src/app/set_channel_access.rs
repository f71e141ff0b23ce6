//! Set Channel Access, 40h. Reference: IPMI 2.0, 22.22.

use super::get_channel_access::ChannelAccess;
use crate::connection::{Channel, IpmiCommand, Message};
use crate::number::{certain, record};
use crate::sys::{self, SETTINGS};
use crate::Error;

/// Which of a channel's two settings a part of the command sets.
#[derive(Clone, Copy, Debug, PartialEq, Eq, PartialOrd, Ord, Hash)]
pub enum AccessPair {
    /// Neither: the part stays as it was.
    Leave,
    /// The stored ones.
    NonVolatile,
    /// Those in use.
    Volatile,
    /// Not to be used: no command has it.
    Reserved,
}

impl From<u8> for AccessPair {
    fn from(value: u8) -> Self {
        match value {
            0 => Self::Leave,
            1 => Self::NonVolatile,
            2 => Self::Volatile,
            _ => Self::Reserved,
        }
    }
}

impl From<AccessPair> for u8 {
    fn from(pair: AccessPair) -> Self {
        match pair {
            AccessPair::Leave => 0,
            AccessPair::NonVolatile => 1,
            AccessPair::Volatile => 2,
            AccessPair::Reserved => 3,
        }
    }
}

/// Sets parts of a channel's access settings. Its response has no data.
///
/// ```
/// use ghjalvestru::app::{AccessPair, ChannelAccess, ChannelSettings, SetChannelAccess};
/// use ghjalvestru::connection::{Channel, Message};
/// use ghjalvestru::Error;
///
/// // What the two Gets showed.
/// let before = ChannelSettings {
///     non_volatile: ChannelAccess::parse(&[0x22, 0x04])?,
///     volatile: ChannelAccess::parse(&[0x20, 0x03])?,
/// };
/// let wanted = ChannelAccess::parse(&[0x02, 0x00])?;
/// let command = SetChannelAccess::new(Channel::new(1)?, AccessPair::Volatile, AccessPair::Leave, wanted)?;
///
/// // The mode in use is set; the limit in use and all that is stored stay.
/// let after = command.apply(&before);
/// assert_eq!(after.volatile, ChannelAccess::parse(&[0x02, 0x03])?);
/// assert_eq!(after.non_volatile, before.non_volatile);
///
/// let message: Message = command.into();
/// assert_eq!((message.cmd(), message.data()), (0x40, &[0x01, 0x82, 0x00][..]));
/// # Ok::<(), Error>(())
/// ```
#[derive(Clone, Copy, Debug, PartialEq, Eq, Hash)]
pub struct SetChannelAccess {
    channel: Channel,
    mode_pair: AccessPair,
    limit_pair: AccessPair,
    access: ChannelAccess,
}

impl SetChannelAccess {
    /// The command's number.
    pub const COMMAND: u8 = 0x40;

    /// For this channel: where the mode and the three flags of `access` go, and where its limit goes. A part that is marked
    /// [`AccessPair::Leave`] is written and read, and changes nothing.
    ///
    /// # Errors
    ///
    /// [`Error::NoForm`] where a pair is [`AccessPair::Reserved`], or the mode or the limit is one that no Get shows.
    pub fn new(
        channel: Channel,
        mode_pair: AccessPair,
        limit_pair: AccessPair,
        access: ChannelAccess,
    ) -> Result<Self, Error> {
        let command = Self {
            channel,
            mode_pair,
            limit_pair,
            access,
        };
        // `Unknown` of a number that has a name: C is given the number alone, and would take it for the named value.
        if ChannelAccess::from_record(access.to_record()) != access {
            return Err(Error::NoForm);
        }
        command.request()?;
        Ok(command)
    }

    /// Reads a request.
    ///
    /// # Errors
    ///
    /// [`Error::NotARequest`] for all bytes that no command writes.
    pub fn read(request: &[u8]) -> Result<Self, Error> {
        let [channel, mode_pair, limit_pair, access @ ..] =
            record::<8>(|out| sys::set_access(request, out))?;
        Ok(Self {
            channel: Channel::new(channel)?,
            mode_pair: mode_pair.into(),
            limit_pair: limit_pair.into(),
            access: ChannelAccess::from_record(access),
        })
    }

    /// Whose settings they are.
    #[must_use]
    pub fn channel(&self) -> Channel {
        self.channel
    }

    /// Where the mode and the three flags go.
    #[must_use]
    pub fn mode_pair(&self) -> AccessPair {
        self.mode_pair
    }

    /// Where the limit goes.
    #[must_use]
    pub fn limit_pair(&self) -> AccessPair {
        self.limit_pair
    }

    /// What is set.
    #[must_use]
    pub fn access(&self) -> ChannelAccess {
        self.access
    }

    /// The settings after the command, of whichever channel they are: a part that is marked [`AccessPair::Leave`] stays.
    /// In settings, `Unknown` of a number that has a name counts as the named value; no Get shows it.
    #[must_use]
    pub fn apply(&self, settings: &ChannelSettings) -> ChannelSettings {
        let (mode_pair, limit_pair) = (self.mode_pair.into(), self.limit_pair.into());
        let (access, before) = (self.access.to_record(), settings.to_record());
        let after =
            record(|out| sys::set_access_apply(mode_pair, limit_pair, &access, &before, out));
        ChannelSettings::from_record(certain(after))
    }

    fn request(&self) -> Result<[u8; 3], Error> {
        let (mode_pair, limit_pair) = (self.mode_pair.into(), self.limit_pair.into());
        let (channel, access) = (self.channel.value(), self.access.to_record());
        record(|out| sys::set_access_request(channel, mode_pair, limit_pair, &access, out))
    }
}

impl From<SetChannelAccess> for Message {
    fn from(command: SetChannelAccess) -> Self {
        Message::request(SetChannelAccess::COMMAND, certain(command.request()))
    }
}

impl IpmiCommand for SetChannelAccess {
    type Output = ();

    /// Any data: the response has none, and what is more than a response has is not looked at.
    fn parse_success_response(_: &[u8]) -> Result<(), Error> {
        Ok(())
    }
}

/// A channel's two settings, as the two Gets show them.
///
/// ```
/// use ghjalvestru::app::{ChannelAccess, ChannelSettings, GetChannelAccess};
/// use ghjalvestru::connection::{Channel, Message};
/// use ghjalvestru::Error;
///
/// /// `ask` gives the data of a request's response.
/// fn settings(channel: Channel, mut ask: impl FnMut(Message) -> Vec<u8>) -> Result<ChannelSettings, Error> {
///     Ok(ChannelSettings {
///         non_volatile: ChannelAccess::parse(&ask(GetChannelAccess::non_volatile(channel).into()))?,
///         volatile: ChannelAccess::parse(&ask(GetChannelAccess::volatile(channel).into()))?,
///     })
/// }
///
/// let shown = settings(Channel::Current, |_| vec![0x22, 0x04])?;
/// assert_eq!(shown.non_volatile, shown.volatile);
/// # Ok::<(), Error>(())
/// ```
#[derive(Clone, Copy, Debug, PartialEq, Eq, Hash)]
pub struct ChannelSettings {
    /// The stored ones.
    pub non_volatile: ChannelAccess,
    /// Those in use.
    pub volatile: ChannelAccess,
}

impl ChannelSettings {
    /// From the two records as C has them.
    fn from_record([a, b, c, d, e, volatile @ ..]: [u8; SETTINGS]) -> Self {
        Self {
            non_volatile: ChannelAccess::from_record([a, b, c, d, e]),
            volatile: ChannelAccess::from_record(volatile),
        }
    }

    /// As C has them.
    fn to_record(self) -> [u8; SETTINGS] {
        let [a, b, c, d, e] = self.non_volatile.to_record();
        let [p, q, r, s, t] = self.volatile.to_record();
        [a, b, c, d, e, p, q, r, s, t]
    }
}

#[cfg(test)]
mod tests {
    use super::AccessPair::{Leave, NonVolatile, Reserved, Volatile};
    use super::*;
    use crate::app::{ChannelAccessMode, ChannelPrivilegeLevel};
    use crate::sys::ACCESS;

    /// No field is that of `settings`.
    const ACCESS_SET: [u8; ACCESS] = [3, 1, 0, 1, 2];

    fn command(mode_pair: AccessPair, limit_pair: AccessPair) -> SetChannelAccess {
        let access = ChannelAccess::from_record(ACCESS_SET);
        SetChannelAccess::new(Channel::Current, mode_pair, limit_pair, access).unwrap()
    }

    fn settings() -> ChannelSettings {
        ChannelSettings::from_record([2, 0, 1, 0, 4, 7, 0, 1, 0, 15])
    }

    /// What is made can be written and applied; what is not is refused by one number.
    fn has_form(mode_pair: AccessPair, limit_pair: AccessPair, access: ChannelAccess) -> bool {
        match SetChannelAccess::new(Channel::Current, mode_pair, limit_pair, access) {
            Ok(command) => {
                let _ = (command.apply(&settings()), Message::from(command));
                true
            }
            Err(refused) => {
                assert_eq!(refused, Error::NoForm);
                false
            }
        }
    }

    #[test]
    fn what_is_marked_leave_is_kept_and_changes_nothing() {
        let command = SetChannelAccess::read(&[0x01, 0x3F, 0x04]).unwrap();
        let expected = SetChannelAccess {
            channel: Channel::new(1).unwrap(),
            mode_pair: Leave,
            limit_pair: Leave,
            access: ChannelAccess {
                access_mode: ChannelAccessMode::Unknown(7),
                alerting_disabled: true,
                per_msg_auth_disabled: true,
                user_level_auth_disabled: true,
                privilege_level_limit: ChannelPrivilegeLevel::Administrator,
            },
        };
        assert_eq!(command, expected);
        assert_eq!(command.apply(&settings()), settings());
        let message = Message::from(command);
        assert_eq!(message.data(), [0x01, 0x3F, 0x04]);
        assert_eq!((message.netfn_raw(), message.cmd()), (0x06, 0x40));
    }

    #[test]
    fn pairs() {
        for value in 0..=u8::MAX {
            assert_eq!(u8::from(AccessPair::from(value)), value.min(3));
        }
        let access = ChannelAccess::from_record(ACCESS_SET);
        for pair in [Leave, NonVolatile, Volatile, Reserved] {
            assert_eq!(has_form(pair, Volatile, access), pair != Reserved);
            assert_eq!(has_form(NonVolatile, pair, access), pair != Reserved);
        }
    }

    /// Also beside a pair that leaves them.
    #[test]
    fn modes_and_limits_that_no_get_shows() {
        let mode = |access_mode| {
            let mut access = ChannelAccess::from_record(ACCESS_SET);
            access.access_mode = access_mode;
            has_form(Leave, Volatile, access)
        };
        let limit = |privilege_level_limit| {
            let mut access = ChannelAccess::from_record(ACCESS_SET);
            access.privilege_level_limit = privilege_level_limit;
            has_form(NonVolatile, Leave, access)
        };
        for value in 0..=u8::MAX {
            assert_eq!(mode(value.into()), value <= 7);
            assert_eq!(limit(value.into()), value <= 15);
            let unknown = ChannelAccessMode::Unknown(value);
            assert_eq!(mode(unknown), (4..=7).contains(&value));
            let unknown = ChannelPrivilegeLevel::Unknown(value);
            assert_eq!(limit(unknown), (6..=15).contains(&value));
        }
    }

    /// Exactly what a command writes is read: as a Get's response below the pairs. It is written again.
    fn read_strictly(request: [u8; 3]) {
        let [channel, mode, limit] = request;
        let read = SetChannelAccess::read(&request);
        let channel = Channel::new(channel);
        if channel.is_err() || mode >> 6 == 3 || limit >> 6 == 3 || limit & 0x30 != 0 {
            assert_eq!(read, Err(Error::NotARequest));
            return;
        }
        let (mode_pair, limit_pair) = ((mode >> 6).into(), (limit >> 6).into());
        let access = ChannelAccess::parse(&[mode, limit]).unwrap();
        assert_eq!(
            read,
            SetChannelAccess::new(channel.unwrap(), mode_pair, limit_pair, access)
        );
        let read = read.unwrap();
        assert_eq!(
            (read.channel(), read.mode_pair(), read.limit_pair()),
            (channel.unwrap(), mode_pair, limit_pair)
        );
        assert_eq!(read.access(), access);
        assert_eq!(Message::from(read).data(), request);
    }

    #[test]
    fn requests() {
        for bytes in 0..=u16::MAX {
            let [mode, limit] = bytes.to_be_bytes();
            read_strictly([0x01, mode, limit]);
            read_strictly([mode, 0x82, limit]);
        }
        for length in (0..=8).filter(|length| *length != 3) {
            let request = &[0x01, 0x82, 0x04, 0x00, 0x00, 0x00, 0x00, 0x00][..length];
            assert_eq!(SetChannelAccess::read(request), Err(Error::NotARequest));
        }
    }

    #[test]
    fn what_each_pair_sets() {
        let rows = [
            (Leave, Leave, [2, 0, 1, 0, 4, 7, 0, 1, 0, 15]),
            (Leave, NonVolatile, [2, 0, 1, 0, 2, 7, 0, 1, 0, 15]),
            (Leave, Volatile, [2, 0, 1, 0, 4, 7, 0, 1, 0, 2]),
            (NonVolatile, Leave, [3, 1, 0, 1, 4, 7, 0, 1, 0, 15]),
            (NonVolatile, NonVolatile, [3, 1, 0, 1, 2, 7, 0, 1, 0, 15]),
            (NonVolatile, Volatile, [3, 1, 0, 1, 4, 7, 0, 1, 0, 2]),
            (Volatile, Leave, [2, 0, 1, 0, 4, 3, 1, 0, 1, 15]),
            (Volatile, NonVolatile, [2, 0, 1, 0, 2, 3, 1, 0, 1, 15]),
            (Volatile, Volatile, [2, 0, 1, 0, 4, 3, 1, 0, 1, 2]),
        ];
        for (mode_pair, limit_pair, expected) in rows {
            let after = command(mode_pair, limit_pair).apply(&settings());
            assert_eq!(after.to_record(), expected);
        }
    }

    #[test]
    fn twice_is_once() {
        for bytes in 0..=u16::MAX {
            let [mode, limit] = bytes.to_be_bytes();
            let Ok(command) = SetChannelAccess::read(&[0x01, mode, limit]) else {
                continue;
            };
            let once = command.apply(&settings());
            assert_eq!(command.apply(&once), once);
        }
    }

    /// Any numbers stand in settings, and stay.
    #[test]
    fn settings_of_any_numbers() {
        for value in 0..=u8::MAX {
            let before = ChannelSettings::from_record([value, 1, 0, 1, value, 2, 0, 1, 0, value]);
            let after = command(Volatile, Leave).apply(&before);
            assert_eq!(after.non_volatile, before.non_volatile);
            let limit = before.volatile.privilege_level_limit;
            assert_eq!(after.volatile.privilege_level_limit, limit);
        }
        let mut before = settings();
        before.non_volatile.access_mode = ChannelAccessMode::Unknown(2);
        assert_eq!(command(Leave, Leave).apply(&before), settings());
    }

    #[test]
    fn any_response() {
        for data in [&[][..], &[0x40]] {
            assert_eq!(SetChannelAccess::parse_success_response(data), Ok(()));
        }
    }
}
