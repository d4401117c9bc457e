//! Parts and messages turned into the structs of `plain`, and back.

use crustnewt::{
    AckFlag, Body, BoxNotice, BoxParts, BoxState, Grant, Granted, HeadNotice, HeadNoticeKind,
    HeadParts, Light, Link, LinkState, Message, QueueSets, RegisterFlag, RequestFlag, UpTo, Window,
};
use plain::{Address, Count, Gate, GrantList};

/// Something of `crustnewt` or of `plain`, as the other has it.
pub(super) trait Turn<T> {
    fn turn(self) -> T;
}

/// Two structs with fields of the same names.
macro_rules! structs {
    ($ours:ident, $theirs:path, $($field:ident),*) => {
        impl Turn<$theirs> for $ours {
            fn turn(self) -> $theirs {
                use $theirs as Theirs;
                Theirs { $($field: self.$field.turn()),* }
            }
        }

        impl Turn<$ours> for $theirs {
            fn turn(self) -> $ours {
                $ours { $($field: self.$field.turn()),* }
            }
        }
    };
}

/// Two enums with cases of the same names, and fields of the same names.
macro_rules! enums {
    ($ours:ident, $theirs:path, $($case:ident $(($inner:ident))? $({ $($field:ident),* })?),*) => {
        impl Turn<$theirs> for $ours {
            fn turn(self) -> $theirs {
                use $theirs as Theirs;
                match self {
                    $($ours::$case $(($inner))? $({ $($field),* })? =>
                        Theirs::$case $(($inner.turn()))? $({ $($field: $field.turn()),* })?,)*
                }
            }
        }

        impl Turn<$ours> for $theirs {
            fn turn(self) -> $ours {
                use $theirs as Theirs;
                match self {
                    $(Theirs::$case $(($inner))? $({ $($field),* })? =>
                        $ours::$case $(($inner.turn()))? $({ $($field: $field.turn()),* })?,)*
                }
            }
        }
    };
}

/// What both have alike.
macro_rules! same {
    ($($kind:ty),*) => {
        $(impl Turn<$kind> for $kind {
            fn turn(self) -> $kind {
                self
            }
        })*
    };
}

same!(bool, u8, u16, u32, u64);

structs!(Grant, plain::Grant, start, length);
structs!(Granted, plain::Granted, grant, force);
structs!(HeadParts, plain::Head, address, count, window);
structs!(HeadNotice, plain::HeadNotice, kind, link, trip, sets);
structs!(Link, plain::Link, address, state, wait, watchdog, periodic);
structs!(
    BoxParts,
    plain::FloorBox,
    address,
    count,
    state,
    wait,
    watchdog,
    report,
    port,
    sync,
    light,
    grants
);

enums!(
    BoxState,
    plain::BoxState,
    Wait,
    Registering,
    Requesting,
    Registered
);
enums!(
    Light,
    plain::Light,
    Rest,
    Before { left, random, sync },
    Random { left, sync },
    Warming { left },
    Asking { left },
    Due { left, grant, sync },
    Lit { left, length, sync },
    Open { left },
    Fading { left }
);
enums!(
    BoxNotice,
    plain::BoxNotice,
    Window,
    Registered,
    Refused,
    Retry,
    Deregistered,
    Grant(granted),
    Open,
    Close
);
enums!(
    Window,
    plain::Window,
    Idle,
    Before { left, length },
    Inside { left }
);
enums!(LinkState, plain::LinkState, Idle, Waiting, Registered);
enums!(
    HeadNoticeKind,
    plain::HeadNoticeKind,
    Request,
    Registered,
    Dropped,
    Report
);
enums!(RequestFlag, plain::frame::RequestFlag, Register, Deregister);
enums!(
    RegisterFlag,
    plain::frame::RegisterFlag,
    Reregister,
    Deregister,
    Ack,
    Nack
);
enums!(AckFlag, plain::frame::AckFlag, Nack, Ack);
enums!(
    Body,
    plain::Body,
    Gate(grants),
    Discovery { granted, sync },
    Report(sets),
    RegisterReq { flag, pending },
    Register {
        flag,
        port,
        sync,
        pending
    },
    RegisterAck { flag, port, sync }
);

impl Turn<Address> for u64 {
    fn turn(self) -> Address {
        Address(self)
    }
}

impl Turn<u64> for Address {
    fn turn(self) -> u64 {
        self.0
    }
}

impl Turn<Count> for u32 {
    fn turn(self) -> Count {
        Count(self)
    }
}

impl Turn<u32> for Count {
    fn turn(self) -> u32 {
        self.0
    }
}

impl Turn<u64> for usize {
    fn turn(self) -> u64 {
        self as u64
    }
}

impl Turn<usize> for u64 {
    fn turn(self) -> usize {
        usize::try_from(self).expect("a link number is small")
    }
}

/// Both lists have as many places.
const ROOM: &str = "there is room for as many";

impl<const MOST: usize> Turn<GrantList> for UpTo<Grant, MOST> {
    fn turn(self) -> GrantList {
        let grants: Vec<plain::Grant> = self.iter().map(|&grant| grant.turn()).collect();
        GrantList::of(&grants).expect(ROOM)
    }
}

impl<const MOST: usize> Turn<UpTo<Grant, MOST>> for GrantList {
    fn turn(self) -> UpTo<Grant, MOST> {
        let grants: Vec<Grant> = self.as_slice().iter().map(|&grant| grant.turn()).collect();
        UpTo::of(&grants).expect(ROOM)
    }
}

impl<const MOST: usize> Turn<Gate> for UpTo<Granted, MOST> {
    fn turn(self) -> Gate {
        let grants: Vec<plain::Granted> = self.iter().map(|&granted| granted.turn()).collect();
        Gate::of(&grants).expect(ROOM)
    }
}

impl<const MOST: usize> Turn<UpTo<Granted, MOST>> for Gate {
    fn turn(self) -> UpTo<Granted, MOST> {
        let grants: Vec<Granted> = self.iter().map(Turn::turn).collect();
        UpTo::of(&grants).expect(ROOM)
    }
}

impl Turn<plain::QueueSets> for QueueSets {
    fn turn(self) -> plain::QueueSets {
        plain::QueueSets::of_octets(self.octets())
    }
}

impl Turn<QueueSets> for plain::QueueSets {
    fn turn(self) -> QueueSets {
        QueueSets::of_octets(self.octets())
    }
}

impl Turn<plain::Message> for Message {
    fn turn(self) -> plain::Message {
        plain::Message {
            to: Address(self.to()),
            from: Address(self.from()),
            stamp: Count(self.stamp()),
            body: self.body().turn(),
        }
    }
}

impl Turn<Message> for plain::Message {
    fn turn(self) -> Message {
        Message::new(self.to.0, self.from.0, self.stamp.0, &self.body.turn())
    }
}
