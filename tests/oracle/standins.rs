// Stand-ins for what the unchanged Rust files lean on: errors that keep their text, result types with the fields
// that the resolver fills, and a file mapping that is never made. Nothing of the format is in here.

pub type Addr = u64;

#[derive(Debug)]
pub struct Error(pub String);

impl Error {
    pub fn with_invalid_data<E: ToString>(text: E) -> Self {
        Error(text.to_string())
    }
}

impl From<std::io::Error> for Error {
    fn from(e: std::io::Error) -> Self {
        Error(e.to_string())
    }
}

pub type Result<T, E = Error> = std::result::Result<T, E>;

pub trait IntoError<T>: Sized {
    fn ok_or_invalid_data<C: ToString, F: FnOnce() -> C>(self, f: F) -> Result<T>;
}

impl<T> IntoError<T> for Option<T> {
    #[inline]
    fn ok_or_invalid_data<C: ToString, F: FnOnce() -> C>(self, f: F) -> Result<T> {
        self.ok_or_else(|| Error(f().to_string()))
    }
}

pub trait ErrorExt: Sized {
    fn context<C: ToString>(self, context: C) -> Self;
}

impl<T> ErrorExt for Result<T> {
    #[inline]
    fn context<C: ToString>(self, context: C) -> Self {
        self.map_err(|e| Error(format!("{}: {}", context.to_string(), e.0)))
    }
}

pub mod log {
    macro_rules! warn_ {
        ($($arg:tt)*) => {
            if false {
                let _ = format!($($arg)*);
            }
        };
    }
    pub(crate) use warn_ as warn;
}

pub mod mmap {
    pub struct Mmap;

    pub struct Builder;

    impl Builder {
        pub fn open(self, _path: &std::path::Path) -> crate::Result<Mmap> {
            Err(crate::Error("no mapping here".into()))
        }
    }

    impl Mmap {
        pub fn builder() -> Builder {
            Builder
        }

        pub fn map(_file: &std::fs::File) -> crate::Result<Mmap> {
            Err(crate::Error("no mapping here".into()))
        }
    }

    impl std::ops::Deref for Mmap {
        type Target = [u8];

        fn deref(&self) -> &[u8] {
            &[]
        }
    }
}

pub mod symbolize {
    use std::borrow::Cow;
    use std::ffi::OsStr;
    use std::path::Path;

    #[derive(Debug, Clone, PartialEq)]
    pub struct CodeInfo<'a> {
        pub dir: Option<Cow<'a, Path>>,
        pub file: Cow<'a, OsStr>,
        pub line: Option<u32>,
        pub column: Option<u16>,
        pub _non_exhaustive: (),
    }

    #[derive(Debug, Clone, PartialEq)]
    pub struct InlinedFn<'a> {
        pub name: Cow<'a, str>,
        pub code_info: Option<CodeInfo<'a>>,
        pub _non_exhaustive: (),
    }

    #[derive(Debug, PartialEq)]
    pub enum Reason {
        UnknownAddr,
    }

    #[derive(Debug, PartialEq)]
    pub enum SrcLang {
        Unknown,
    }

    #[derive(Debug)]
    pub struct ResolvedSym<'a> {
        pub name: &'a str,
        pub module: Option<&'a OsStr>,
        pub addr: u64,
        pub size: Option<usize>,
        pub lang: SrcLang,
        pub code_info: Option<Box<CodeInfo<'a>>>,
        pub inlined: Box<[InlinedFn<'a>]>,
        pub _non_exhaustive: (),
    }

    #[derive(Clone, Copy)]
    pub struct FindSymOpts {
        pub code: bool,
        pub inlined: bool,
    }

    impl FindSymOpts {
        pub fn code_info(&self) -> bool {
            self.code
        }

        pub fn inlined_fns(&self) -> bool {
            self.inlined
        }
    }

    pub trait Symbolize {
        fn find_sym(&self, addr: u64, opts: &FindSymOpts) -> crate::Result<Result<ResolvedSym<'_>, Reason>>;
    }
}
