//! The crate's own reader with every call passed on.
use h264_reader::rbsp::{BitRead, BitReaderError, Integer, Primitive};

/// The crate's own reader with every call passed on, noting names and places. It sees what the
/// Rust's record drops: modification flags, entry counts before a refusal, bit places.
pub struct Tracer<R> {
    inner: R,
    /// Bits taken so far.
    pub pos: u64,
    /// Where the field last asked for begins.
    pub start: u64,
    /// The last field was an Exp-Golomb code.
    pub golomb: bool,
    pub name: &'static str,
    pub last_se: i32,
    mvc: bool,
    entries: u32,
    /// Where the 67th good list entry began.
    pub over: Option<u64>,
    pub flags: Vec<bool>,
}
impl<R: BitRead> Tracer<R> {
    pub fn new(inner: R, mvc: bool) -> Self {
        Tracer {
            inner,
            pos: 0,
            start: 0,
            golomb: false,
            name: "",
            last_se: 0,
            mvc,
            entries: 0,
            over: None,
            flags: vec![],
        }
    }
    fn begin(&mut self, golomb: bool, name: &'static str) {
        self.start = self.pos;
        self.name = name;
        self.golomb = golomb;
    }
    fn entry(&mut self, good: bool) {
        if good {
            self.entries += 1;
            if self.entries > 66 && self.over.is_none() {
                self.over = Some(self.start);
            }
        }
    }
}
pub fn ue_len(v: u32) -> u64 {
    let k = u64::from(v) + 1;
    2 * (63 - u64::from(k.leading_zeros())) + 1
}
impl<R: BitRead> BitRead for Tracer<R> {
    fn read_ue(&mut self, name: &'static str) -> Result<u32, BitReaderError> {
        self.begin(true, name);
        let v = self.inner.read_ue(name)?;
        self.pos += ue_len(v);
        match name {
            "modification_of_pic_nums_idc" => self.entry(v < 3 || (self.mvc && (v == 4 || v == 5))),
            "memory_management_control_operation" => self.entry((1..=6).contains(&v)),
            "memory_management_base_control_operation" => self.entry(v == 1 || v == 2),
            _ => {}
        }
        Ok(v)
    }
    fn read_se(&mut self, name: &'static str) -> Result<i32, BitReaderError> {
        self.begin(true, name);
        let v = self.inner.read_se(name)?;
        self.pos += ue_len(if v > 0 {
            (v as u32) * 2 - 1
        } else {
            v.unsigned_abs() * 2
        });
        self.last_se = v;
        Ok(v)
    }
    fn read_bit(&mut self, name: &'static str) -> Result<bool, BitReaderError> {
        self.begin(false, name);
        let v = self.inner.read_bit(name)?;
        self.pos += 1;
        match name {
            "ref_pic_list_modification_flag" => {
                self.entries = 0;
                self.flags.push(v);
            }
            "adaptive_ref_pic_marking_mode_flag" | "store_ref_base_pic_flag" => self.entries = 0,
            _ => {}
        }
        Ok(v)
    }
    fn read<const BITS: u32, I: Integer>(&mut self, name: &'static str) -> Result<I, BitReaderError> {
        self.begin(false, name);
        let v = self.inner.read::<BITS, I>(name)?;
        self.pos += u64::from(BITS);
        Ok(v)
    }
    fn read_var<I: Integer>(&mut self, bits: u32, name: &'static str) -> Result<I, BitReaderError> {
        self.begin(false, name);
        let v = self.inner.read_var::<I>(bits, name)?;
        self.pos += u64::from(bits);
        Ok(v)
    }
    fn read_to<V: Primitive>(&mut self, name: &'static str) -> Result<V, BitReaderError> {
        self.begin(false, name);
        let v = self.inner.read_to::<V>(name)?;
        self.pos += 8 * std::mem::size_of::<V>() as u64;
        Ok(v)
    }
    fn skip(&mut self, bits: u32, name: &'static str) -> Result<(), BitReaderError> {
        self.begin(false, name);
        self.inner.skip(bits, name)?;
        self.pos += u64::from(bits);
        Ok(())
    }
    fn byte_aligned(&self) -> bool {
        self.inner.byte_aligned()
    }
    fn has_more_rbsp_data(&mut self, name: &'static str) -> Result<bool, BitReaderError> {
        self.begin(false, name);
        self.inner.has_more_rbsp_data(name)
    }
    fn finish_rbsp(self) -> Result<(), BitReaderError> {
        self.inner.finish_rbsp()
    }
    fn finish_sei_payload(self) -> Result<(), BitReaderError> {
        self.inner.finish_sei_payload()
    }
}
