//! The table of layouts, as 01 "Frame and keys" has it. Each layout is the sequence of its fields; what is done at a
//! field (read it, check it, write it) is the business of whoever implements `Fields`.

/// Whether a null is admitted.
#[derive(Clone, Copy, PartialEq, Eq)]
pub enum Null {
    Refused,
    Admitted,
}

/// Text (T, T?) or a reference (R, R?), which has at most 256 bytes.
#[derive(Clone, Copy)]
pub struct Text {
    pub longest: u64,
    pub null: Null,
}

const T: Text = Text { longest: 32_767, null: Null::Refused };
const T_OR_NULL: Text = Text { longest: 32_767, null: Null::Admitted };
const R: Text = Text { longest: 256, null: Null::Refused };
const R_OR_NULL: Text = Text { longest: 256, null: Null::Admitted };

/// One action for each kind of field. The first `Stop` ends a layout.
pub trait Fields {
    type Stop;
    /// What stands when every field is done.
    type Output;
    fn u8(&mut self) -> Result<(), Self::Stop>;
    fn u16(&mut self) -> Result<(), Self::Stop>;
    fn u32(&mut self) -> Result<(), Self::Stop>;
    fn u64(&mut self) -> Result<(), Self::Stop>;
    fn i64(&mut self) -> Result<(), Self::Stop>;
    /// One byte, 0 or 1.
    fn active(&mut self) -> Result<(), Self::Stop>;
    fn text(&mut self, rule: Text) -> Result<(), Self::Stop>;
    fn bytes(&mut self, null: Null) -> Result<(), Self::Stop>;
    /// An offset specification: types 1 to 5, and 0 where `none` is set.
    fn offset(&mut self, none: bool) -> Result<(), Self::Stop>;
    fn list<E: Element>(&mut self) -> Result<(), Self::Stop>;
    fn chunk(&mut self) -> Result<(), Self::Stop>;
    fn unknown_key(&mut self) -> Self::Stop;
    fn unknown_version(&mut self) -> Self::Stop;
    /// Behind the last field.
    fn finish(self) -> Result<Self::Output, Self::Stop>;
}

/// What a list holds.
pub trait Element {
    /// The number by which the C boundary knows this element.
    const SHAPE: u8;
    /// The bytes of each element, or 0 where they vary.
    const WIDTH: usize = 0;
    fn fields<F: Fields>(f: &mut F) -> Result<(), F::Stop>;
}

macro_rules! elements {
    ($($(#[$about:meta])* $name:ident $shape:literal $(width $width:literal)? = |$f:ident| $fields:expr;)*) => {
        $($(#[$about])*
        pub struct $name;
        impl Element for $name {
            const SHAPE: u8 = $shape;
            $(const WIDTH: usize = $width;)?
            #[inline(always)]
            fn fields<F: Fields>($f: &mut F) -> Result<(), F::Stop> {
                $fields
            }
        })*
    };
}

elements! {
    /// [u64 B]
    Message 1 = |f| { f.u64()?; f.bytes(Null::Refused) };
    /// [u64 T? B]
    FilteredMessage 2 = |f| { f.u64()?; f.text(T_OR_NULL)?; f.bytes(Null::Refused) };
    /// [u64]
    PublishingId 3 width 8 = |f| f.u64();
    /// [u64 u16]
    PublishingError 4 width 10 = |f| { f.u64()?; f.u16() };
    /// [T T]
    Property 5 = |f| { f.text(T)?; f.text(T) };
    /// [T]
    Name 6 = |f| f.text(T);
    /// [u16 u16 u16]
    CommandVersions 7 width 6 = |f| { f.u16()?; f.u16()?; f.u16() };
    /// [u16 T u32]
    Broker 8 = |f| { f.u16()?; f.text(T)?; f.u32() };
    /// [T u16 u16 [u16]]
    StreamMetadata 9 = |f| { f.text(T)?; f.u16()?; f.u16()?; f.list::<Replica>() };
    /// [T i64]
    Statistic 10 = |f| { f.text(T)?; f.i64() };
    /// [u16]
    Replica 11 width 2 = |f| f.u16();
}

/// The content of a frame, field by field. An unlisted key is found before an unlisted version.
#[inline(always)]
pub fn content<F: Fields>(key: u16, version: u16, mut f: F) -> Result<F::Output, F::Stop> {
    match (key, version) {
        // DeclarePublisher c u8 R? T
        (0x0001, 1) => {
            f.u32()?;
            f.u8()?;
            f.text(R_OR_NULL)?;
            f.text(T)?;
            f.finish()
        }
        // Publish u8 [u64 B]
        (0x0002, 1) => {
            f.u8()?;
            f.list::<Message>()?;
            f.finish()
        }
        // Publish u8 [u64 T? B]
        (0x0002, 2) => {
            f.u8()?;
            f.list::<FilteredMessage>()?;
            f.finish()
        }
        // PublishConfirm u8 [u64]
        (0x0003, 1) => {
            f.u8()?;
            f.list::<PublishingId>()?;
            f.finish()
        }
        // PublishError u8 [u64 u16]
        (0x0004, 1) => {
            f.u8()?;
            f.list::<PublishingError>()?;
            f.finish()
        }
        // QueryPublisher c R T, QueryOffset c R T
        (0x0005 | 0x000b, 1) => {
            f.u32()?;
            f.text(R)?;
            f.text(T)?;
            f.finish()
        }
        // DeletePublisher c u8, Unsubscribe c u8
        (0x0006 | 0x000c, 1) => {
            f.u32()?;
            f.u8()?;
            f.finish()
        }
        // Subscribe c u8 T spec u16 [T T]
        (0x0007, 1) => {
            f.u32()?;
            f.u8()?;
            f.text(T)?;
            f.offset(false)?;
            f.u16()?;
            f.list::<Property>()?;
            f.finish()
        }
        // Deliver u8 chunk
        (0x0008, 1) => {
            f.u8()?;
            f.chunk()?;
            f.finish()
        }
        // Deliver u8 u64 chunk
        (0x0008, 2) => {
            f.u8()?;
            f.u64()?;
            f.chunk()?;
            f.finish()
        }
        // Credit u8 u16
        (0x0009, 1) => {
            f.u8()?;
            f.u16()?;
            f.finish()
        }
        // StoreOffset R T u64
        (0x000a, 1) => {
            f.text(R)?;
            f.text(T)?;
            f.u64()?;
            f.finish()
        }
        // Create c T [T T]
        (0x000d, 1) => {
            f.u32()?;
            f.text(T)?;
            f.list::<Property>()?;
            f.finish()
        }
        // Delete, Open, Partitions, StreamStats, DeleteSuperStream: c T
        (0x000e | 0x0015 | 0x0019 | 0x001c | 0x001e, 1) => {
            f.u32()?;
            f.text(T)?;
            f.finish()
        }
        // Metadata c [T]
        (0x000f, 1) => {
            f.u32()?;
            f.list::<Name>()?;
            f.finish()
        }
        // MetadataUpdate u16 T
        (0x0010, 1) => {
            f.u16()?;
            f.text(T)?;
            f.finish()
        }
        // PeerProperties c [T T]
        (0x0011, 1) => {
            f.u32()?;
            f.list::<Property>()?;
            f.finish()
        }
        // SaslHandshake c
        (0x0012, 1) => {
            f.u32()?;
            f.finish()
        }
        // SaslAuthenticate c T B?
        (0x0013, 1) => {
            f.u32()?;
            f.text(T)?;
            f.bytes(Null::Admitted)?;
            f.finish()
        }
        // Tune u32 u32, under both keys
        (0x0014 | 0x8014, 1) => {
            f.u32()?;
            f.u32()?;
            f.finish()
        }
        // Close c u16 T
        (0x0016, 1) => {
            f.u32()?;
            f.u16()?;
            f.text(T)?;
            f.finish()
        }
        // Heartbeat
        (0x0017, 1) => f.finish(),
        // Route c T T
        (0x0018, 1) => {
            f.u32()?;
            f.text(T)?;
            f.text(T)?;
            f.finish()
        }
        // ConsumerUpdate c u8 u8, the last being Active
        (0x001a, 1) => {
            f.u32()?;
            f.u8()?;
            f.active()?;
            f.finish()
        }
        // ExchangeCommandVersions c [u16 u16 u16]
        (0x001b, 1) => {
            f.u32()?;
            f.list::<CommandVersions>()?;
            f.finish()
        }
        // CreateSuperStream c T [T] [T] [T T]
        (0x001d, 1) => {
            f.u32()?;
            f.text(T)?;
            f.list::<Name>()?;
            f.list::<Name>()?;
            f.list::<Property>()?;
            f.finish()
        }
        // Responses that are c rc alone
        (0x8001 | 0x8006 | 0x8007 | 0x800c | 0x800d | 0x800e | 0x8016 | 0x801d | 0x801e, 1) => {
            f.u32()?;
            f.u16()?;
            f.finish()
        }
        // QueryPublisher, QueryOffset: c rc u64
        (0x8005 | 0x800b, 1) => {
            f.u32()?;
            f.u16()?;
            f.u64()?;
            f.finish()
        }
        // Credit rc u8
        (0x8009, 1) => {
            f.u16()?;
            f.u8()?;
            f.finish()
        }
        // Metadata c [u16 T u32] [T u16 u16 [u16]]
        (0x800f, 1) => {
            f.u32()?;
            f.list::<Broker>()?;
            f.list::<StreamMetadata>()?;
            f.finish()
        }
        // PeerProperties, Open: c rc [T T]
        (0x8011 | 0x8015, 1) => {
            f.u32()?;
            f.u16()?;
            f.list::<Property>()?;
            f.finish()
        }
        // SaslHandshake, Route, Partitions: c rc [T]
        (0x8012 | 0x8018 | 0x8019, 1) => {
            f.u32()?;
            f.u16()?;
            f.list::<Name>()?;
            f.finish()
        }
        // SaslAuthenticate c rc B?
        (0x8013, 1) => {
            f.u32()?;
            f.u16()?;
            f.bytes(Null::Admitted)?;
            f.finish()
        }
        // ConsumerUpdate c rc spec
        (0x801a, 1) => {
            f.u32()?;
            f.u16()?;
            f.offset(true)?;
            f.finish()
        }
        // ExchangeCommandVersions c rc [u16 u16 u16]
        (0x801b, 1) => {
            f.u32()?;
            f.u16()?;
            f.list::<CommandVersions>()?;
            f.finish()
        }
        // StreamStats c rc [T i64]
        (0x801c, 1) => {
            f.u32()?;
            f.u16()?;
            f.list::<Statistic>()?;
            f.finish()
        }
        _ if is_listed(key) => Err(f.unknown_version()),
        _ => Err(f.unknown_key()),
    }
}

/// The 53 keys of 01.
pub fn is_listed(key: u16) -> bool {
    matches!(
        key,
        0x0001..=0x001e
            | 0x8001
            | 0x8005..=0x8007
            | 0x8009
            | 0x800b..=0x800f
            | 0x8011..=0x8016
            | 0x8018..=0x801e
    )
}

/// Every listed key, in rising order.
pub fn keys() -> impl Iterator<Item = u16> {
    (0..=u16::MAX).filter(|key| is_listed(*key))
}

/// The versions of a listed key: 1, and 2 for Publish and Deliver.
pub fn versions(key: u16) -> std::ops::RangeInclusive<u16> {
    if matches!(key, 0x0002 | 0x0008) { 1..=2 } else { 1..=1 }
}
