// Stand-ins for what the original takes from elsewhere, with the fields and functions that it uses and nothing behind them.
use std::fmt;
use std::io::{Read, Seek};

#[derive(Debug)]
pub enum Error {
    Invalid(String),
    Eof,
    NeedMore,
}

impl Error {
    pub fn invalid(what: impl Into<String>) -> Self {
        Error::Invalid(what.into())
    }
}

impl fmt::Display for Error {
    fn fmt(&self, f: &mut fmt::Formatter) -> fmt::Result {
        match self {
            Error::Invalid(what) => f.write_str(what),
            Error::Eof => f.write_str("eof"),
            Error::NeedMore => f.write_str("need more"),
        }
    }
}

impl From<std::io::Error> for Error {
    fn from(e: std::io::Error) -> Self {
        Error::Invalid(e.to_string())
    }
}

pub type Result<T> = std::result::Result<T, Error>;

#[derive(Clone, Debug, Default)]
pub struct CodecId(pub String);

impl CodecId {
    pub fn new(name: &str) -> Self {
        CodecId(name.to_string())
    }
}

#[derive(Clone, Copy, Debug, Default, PartialEq)]
pub enum MediaType {
    #[default]
    Video,
    Subtitle,
}

#[derive(Clone, Copy, Debug, PartialEq)]
pub enum PixelFormat {
    Rgba,
}

#[derive(Clone, Debug, Default)]
pub struct CodecParameters {
    pub codec: CodecId,
    pub media_type: MediaType,
    pub width: Option<u32>,
    pub height: Option<u32>,
    pub pixel_format: Option<PixelFormat>,
    pub extradata: Vec<u8>,
}

impl CodecParameters {
    pub fn video(codec: CodecId) -> Self {
        CodecParameters { codec, ..Default::default() }
    }
}

#[derive(Clone, Copy, Debug)]
pub struct TimeBase(pub i64, pub i64);

impl TimeBase {
    pub fn new(a: i64, b: i64) -> Self {
        TimeBase(a, b)
    }
}

#[derive(Clone, Debug)]
pub struct StreamInfo {
    pub index: u32,
    pub time_base: TimeBase,
    pub duration: Option<i64>,
    pub start_time: Option<i64>,
    pub params: CodecParameters,
}

#[derive(Clone, Debug, Default)]
pub struct Flags {
    pub keyframe: bool,
}

#[derive(Clone, Debug)]
pub struct Packet {
    pub stream: u32,
    pub time_base: TimeBase,
    pub data: Vec<u8>,
    pub pts: Option<i64>,
    pub dts: Option<i64>,
    pub duration: Option<i64>,
    pub flags: Flags,
}

impl Packet {
    pub fn new(stream: u32, time_base: TimeBase, data: Vec<u8>) -> Self {
        Packet { stream, time_base, data, pts: None, dts: None, duration: None, flags: Flags::default() }
    }
}

#[derive(Clone, Debug)]
pub struct VideoPlane {
    pub stride: usize,
    pub data: Vec<u8>,
}

#[derive(Clone, Debug)]
pub struct VideoFrame {
    pub pts: Option<i64>,
    pub planes: Vec<VideoPlane>,
}

#[derive(Clone, Debug)]
pub enum Frame {
    Video(VideoFrame),
}

pub trait Decoder {
    fn codec_id(&self) -> &CodecId;
    fn send_packet(&mut self, packet: &Packet) -> Result<()>;
    fn receive_frame(&mut self) -> Result<Frame>;
    fn flush(&mut self) -> Result<()>;
    fn reset(&mut self) -> Result<()>;
}

pub trait Demuxer {
    fn format_name(&self) -> &str;
    fn streams(&self) -> &[StreamInfo];
    fn next_packet(&mut self) -> Result<Packet>;
    fn duration_micros(&self) -> Option<i64>;
}

pub trait ReadSeek: Read + Seek {}
pub trait CodecResolver {}

pub struct ProbeData<'a> {
    pub buf: &'a [u8],
    pub ext: Option<&'a str>,
}

pub type ProbeScore = u8;
type Open = fn(Box<dyn ReadSeek>, &dyn CodecResolver) -> Result<Box<dyn Demuxer>>;

pub struct ContainerRegistry;

impl ContainerRegistry {
    pub fn register_demuxer(&mut self, _: &str, _: Open) {}
    pub fn register_extension(&mut self, _: &str, _: &str) {}
    pub fn register_probe(&mut self, _: &str, _: fn(&ProbeData) -> ProbeScore) {}
}
