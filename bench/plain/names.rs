//! Names and numbers of faults, signals, system calls and errnos.

#[derive(Clone, Copy, PartialEq)]
pub enum Fault {
    Ill,
    Bpt,
    Trace,
    Watch,
    Access,
    Bounds,
    Stack,
    Izdiv,
}

impl Fault {
    pub fn name(self) -> &'static str {
        match self {
            Fault::Ill => "FLTILL",
            Fault::Bpt => "FLTBPT",
            Fault::Trace => "FLTTRACE",
            Fault::Watch => "FLTWATCH",
            Fault::Access => "FLTACCESS",
            Fault::Bounds => "FLTBOUNDS",
            Fault::Stack => "FLTSTACK",
            Fault::Izdiv => "FLTIZDIV",
        }
    }

    pub fn number(self) -> u8 {
        match self {
            Fault::Ill => 1,
            Fault::Bpt => 2,
            Fault::Trace => 3,
            Fault::Watch => 4,
            Fault::Access => 5,
            Fault::Bounds => 6,
            Fault::Stack => 7,
            Fault::Izdiv => 8,
        }
    }

    pub fn signal(self) -> u8 {
        match self {
            Fault::Ill => 4,
            Fault::Bpt | Fault::Trace | Fault::Watch => 5,
            Fault::Access => 10,
            Fault::Bounds | Fault::Stack => 11,
            Fault::Izdiv => 8,
        }
    }
}

pub fn signal_name(signal: u8) -> &'static str {
    match signal {
        4 => "SIGILL",
        5 => "SIGTRAP",
        8 => "SIGFPE",
        10 => "SIGBUS",
        _ => "SIGSEGV",
    }
}

#[derive(Clone, Copy, PartialEq)]
pub enum Sysno {
    Exit,
    Getpid,
}

impl Sysno {
    pub fn number(self) -> u64 {
        match self {
            Sysno::Exit => 1,
            Sysno::Getpid => 8,
        }
    }

    pub fn name(self) -> &'static str {
        match self {
            Sysno::Exit => "exit",
            Sysno::Getpid => "getpid",
        }
    }

    pub fn of(number: u64) -> Option<Sysno> {
        [Sysno::Exit, Sysno::Getpid]
            .into_iter()
            .find(|call| call.number() == number)
    }
}

#[derive(Clone, Copy)]
pub enum Errno {
    Noent,
    Badf,
    Busy,
    Inval,
    Mfile,
}

impl Errno {
    pub fn name(self) -> &'static str {
        match self {
            Errno::Noent => "ENOENT",
            Errno::Badf => "EBADF",
            Errno::Busy => "EBUSY",
            Errno::Inval => "EINVAL",
            Errno::Mfile => "EMFILE",
        }
    }
}
