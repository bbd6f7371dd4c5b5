//! `import tuzmarghil`: the units of a recording as plain objects, their kinds alone, its exposures, and QP as an array.

use ::tuzmarghil::{
    container, in_container, LengthFramed, NalHeaderExtension, Refusal, Stream, StreamExposures,
    StreamHead, StreamReport, Table, Unit, Units,
};
use pyo3::exceptions::{PyOSError, PyValueError};
use pyo3::prelude::*;
use pyo3::types::{PyBytes, PyDict};
use std::fs::File;
use std::io::{Chain, Cursor, Read};
use std::path::{Path, PathBuf};

/// A unit of a recording. What it does not have is None.
#[pyclass(frozen, module = "tuzmarghil")]
#[derive(Default)]
struct Report {
    /// Where the unit begins, after its start code or its length.
    #[pyo3(get)]
    place: u64,
    /// How many bytes it has.
    #[pyo3(get)]
    length: u64,
    /// 'slice', 'prefix', 'sps', 'pps', 'other' or 'refused'
    #[pyo3(get)]
    answer: &'static str,
    #[pyo3(get)]
    nal_unit_type: Option<u8>,
    #[pyo3(get)]
    nal_ref_idc: Option<u8>,
    /// The number of a refusal, its value, the bit of the unescaped body where the refused field begins, if it arises there, and why in words.
    #[pyo3(get)]
    refusal: Option<u32>,
    #[pyo3(get)]
    value: Option<i64>,
    #[pyo3(get)]
    bit: Option<usize>,
    #[pyo3(get)]
    why: Option<String>,
    #[pyo3(get)]
    first_mb_in_slice: Option<u32>,
    /// 0 to 9, and its letters P, B, I, SP or SI.
    #[pyo3(get)]
    slice_type: Option<u32>,
    #[pyo3(get)]
    family: Option<String>,
    /// Of a slice the picture set that it names, of a set its own id.
    #[pyo3(get)]
    pic_parameter_set_id: Option<u32>,
    #[pyo3(get)]
    seq_parameter_set_id: Option<u32>,
    /// A parameter set as the word of a table, such as those of SAMPLE.
    #[pyo3(get)]
    word: Option<String>,
    #[pyo3(get)]
    frame_num: Option<u16>,
    #[pyo3(get)]
    slice_qp_delta: Option<i32>,
    /// The header's length in bits.
    #[pyo3(get)]
    bits: Option<usize>,
    /// The final QP, by the sets that the slice was read by: 26 + pic_init_qp_minus26 + slice_qp_delta.
    #[pyo3(get)]
    qp: Option<i64>,
}

#[pymethods]
impl Report {
    fn __repr__(&self) -> String {
        let Report {
            place,
            length,
            answer,
            ..
        } = self;
        let more = match (self.qp, self.refusal) {
            (Some(qp), _) => format!(" qp={qp}"),
            (_, Some(number)) => {
                let bit = self.bit.map_or(String::new(), |bit| format!(" bit={bit}"));
                format!(" refusal={number}{bit}")
            }
            _ => String::new(),
        };
        format!("<tuzmarghil.Report place={place} length={length} {answer}{more}>")
    }
}

fn report(r: &StreamReport<'_>) -> Report {
    let (place, length) = (r.place, r.length);
    let plain = Report {
        place,
        length,
        ..Report::default()
    };
    match r.unit() {
        Ok(Unit::Slice(slice)) => {
            let header = &slice.header;
            Report {
                answer: "slice",
                nal_unit_type: Some(slice.nal_header.nal_unit_type().id()),
                nal_ref_idc: Some(slice.nal_header.nal_ref_idc()),
                first_mb_in_slice: Some(header.first_mb_in_slice),
                slice_type: Some(header.slice_type.id()),
                family: Some(format!("{:?}", header.slice_type.family)),
                pic_parameter_set_id: Some(header.pic_parameter_set_id),
                seq_parameter_set_id: Some(header.seq_parameter_set_id),
                frame_num: Some(header.frame_num),
                slice_qp_delta: Some(header.slice_qp_delta),
                bits: Some(slice.bits),
                qp: Some(slice.qp),
                ..plain
            }
        }
        Ok(Unit::Prefix(prefix)) => Report {
            answer: "prefix",
            nal_unit_type: Some(14),
            nal_ref_idc: Some(prefix.nal_header.nal_ref_idc()),
            ..plain
        },
        Ok(Unit::Sequence(set)) => Report {
            answer: "sps",
            nal_unit_type: Some(7),
            seq_parameter_set_id: Some(set.seq_parameter_set_id),
            word: Some(set.to_string()),
            ..plain
        },
        Ok(Unit::Picture(set)) => Report {
            answer: "pps",
            nal_unit_type: Some(8),
            pic_parameter_set_id: Some(set.pic_parameter_set_id),
            seq_parameter_set_id: Some(set.picture.seq_parameter_set_id),
            word: Some(set.to_string()),
            ..plain
        },
        Ok(Unit::Other(kind)) => Report {
            answer: "other",
            nal_unit_type: Some(kind.id()),
            ..plain
        },
        Ok(_) => Report {
            answer: "other",
            ..plain
        },
        Err(refusal) => Report {
            answer: "refused",
            refusal: Some(refusal.number),
            value: Some(refusal.value),
            bit: refusal.bit,
            why: Some(refusal.reason()),
            ..plain
        },
    }
}

/// What a unit's first bytes say, without its body. What it does not have is None.
#[pyclass(frozen, module = "tuzmarghil")]
#[derive(Default)]
struct Kind {
    /// Where the unit begins, after its start code or its length.
    #[pyo3(get)]
    place: u64,
    /// How many bytes it has.
    #[pyo3(get)]
    length: u64,
    #[pyo3(get)]
    nal_unit_type: Option<u8>,
    #[pyo3(get)]
    nal_ref_idc: Option<u8>,
    /// 'svc' or 'mvc', of types 14, 20 and 21, and the extension's three bytes in hex.
    #[pyo3(get)]
    ext: Option<&'static str>,
    #[pyo3(get)]
    ext_bytes: Option<String>,
    /// The number of a refusal, its value, and why in words.
    #[pyo3(get)]
    refusal: Option<u32>,
    #[pyo3(get)]
    value: Option<i64>,
    #[pyo3(get)]
    why: Option<String>,
}

#[pymethods]
impl Kind {
    fn __repr__(&self) -> String {
        let Kind { place, length, .. } = self;
        let more = match (self.nal_unit_type, self.refusal) {
            (Some(id), _) => format!("type={id}"),
            (_, number) => format!("refusal={}", number.unwrap_or(0)),
        };
        format!("<tuzmarghil.Kind place={place} length={length} {more}>")
    }
}

fn kind(unit: &StreamHead<'_>) -> Kind {
    let plain = Kind {
        place: unit.place,
        length: unit.length,
        ..Kind::default()
    };
    match unit.head() {
        Ok(head) => {
            let extension = head.extension();
            let hex = |e: NalHeaderExtension| e.to_bytes().map(|b| format!("{b:02x}")).concat();
            Kind {
                nal_unit_type: Some(head.nal_unit_type().id()),
                nal_ref_idc: Some(head.nal_ref_idc()),
                ext: extension.map(|e| match e {
                    NalHeaderExtension::Svc(_) => "svc",
                    NalHeaderExtension::Mvc(_) => "mvc",
                }),
                ext_bytes: extension.map(hex),
                ..plain
            }
        }
        Err(refusal) => Kind {
            refusal: Some(refusal.number),
            value: Some(refusal.value),
            why: Some(refusal.reason()),
            ..plain
        },
    }
}

/// A picture as a stacker weighs it.
#[pyclass(frozen, module = "tuzmarghil")]
struct Exposure(::tuzmarghil::Exposure);

#[pymethods]
impl Exposure {
    /// From 1 on.
    #[getter]
    fn number(&self) -> u64 {
        self.0.number
    }

    /// Where its first slice's unit begins, after its start code.
    #[getter]
    fn place(&self) -> u64 {
        self.0.place
    }

    /// How many slices it has.
    #[getter]
    fn slices(&self) -> u64 {
        self.0.slices
    }

    /// The least, the mean and the greatest final QP of its slices.
    #[getter]
    fn qp_least(&self) -> i64 {
        self.0.qp_least
    }

    #[getter]
    fn qp_mean(&self) -> f64 {
        self.0.qp_mean
    }

    #[getter]
    fn qp_greatest(&self) -> i64 {
        self.0.qp_greatest
    }

    #[getter]
    fn frame_num(&self) -> u32 {
        self.0.frame_num
    }

    /// Frames are missing before it.
    #[getter]
    fn gap(&self) -> bool {
        self.0.gap
    }

    /// Refused units behind the first slice of the exposure before, or the recording's start, and before its own.
    #[getter]
    fn refused_before(&self) -> u64 {
        self.0.refused_before
    }

    fn __repr__(&self) -> String {
        let e = &self.0;
        let (place, slices, frame) = (e.place, e.slices, e.frame_num);
        let mean = e.qp_mean;
        format!("<tuzmarghil.Exposure number={} place={place} slices={slices} qp_mean={mean:.2} frame_num={frame}>", e.number)
    }
}

/// A recording's file, its front looked at.
type Source = Chain<Cursor<Vec<u8>>, File>;
type Recording = Units<Source>;

/// The recording, by a table to start with and framed as is asked for, and its name for messages.
fn open(path: &Path, table: Table, framing: Option<&str>) -> PyResult<(Recording, String)> {
    let framed = match framing {
        None | Some("start-codes") => false,
        Some("length") => true,
        Some(other) => {
            let told = format!("framing {other:?} is neither 'start-codes' nor 'length'");
            return Err(PyValueError::new_err(told));
        }
    };
    let name = path.display().to_string();
    let failed = |e| PyOSError::new_err(format!("{name}: {e}"));
    let mut file = File::open(path).map_err(failed)?;
    let mut front = Vec::new();
    let look = file.by_ref().take(4096).read_to_end(&mut front);
    let whole = look.map_err(failed)? < 4096;
    let told = match framed {
        true => in_container(&front),
        false => container(&front, whole),
    };
    if let Some(told) = told {
        return Err(PyValueError::new_err(format!("{name}: {told}")));
    }
    let source = Cursor::new(front).chain(file);
    let units = match framed {
        true => Units::Length(LengthFramed::with_table(source, table)),
        false => Units::StartCodes(Stream::with_table(source, table)),
    };
    Ok((units, name))
}

/// The place of the broken length that a recording framed by length ended at, or None.
fn place(broken: Option<Refusal>) -> Option<i64> {
    broken.map(|refusal| refusal.value)
}

/// The kinds of a recording's units, one after the other.
#[pyclass(module = "tuzmarghil")]
struct Kinds {
    stream: Recording,
    name: String,
}

#[pymethods]
impl Kinds {
    fn __iter__(slf: PyRef<'_, Self>) -> PyRef<'_, Self> {
        slf
    }

    fn __next__(&mut self, py: Python<'_>) -> PyResult<Option<Kind>> {
        py.check_signals()?;
        let name = &self.name;
        let step = self.stream.next_head();
        let step = step.map_err(|e| PyOSError::new_err(format!("{name}: {e}")))?;
        Ok(step.map(|unit| kind(&unit)))
    }

    /// At the end, the place of the broken length that ended a recording framed by length, or None.
    #[getter]
    fn broken(&self) -> Option<i64> {
        place(self.stream.broken())
    }
}

/// The exposures of a recording, one after the other.
#[pyclass(module = "tuzmarghil")]
struct Exposures {
    found: StreamExposures<Source>,
    name: String,
}

#[pymethods]
impl Exposures {
    fn __iter__(slf: PyRef<'_, Self>) -> PyRef<'_, Self> {
        slf
    }

    fn __next__(&mut self, py: Python<'_>) -> PyResult<Option<Exposure>> {
        py.check_signals()?;
        let name = &self.name;
        let step = self.found.next().transpose();
        let step = step.map_err(|e| PyOSError::new_err(format!("{name}: {e}")))?;
        Ok(step.map(Exposure))
    }

    /// At the end, the place of the broken length that ended a recording framed by length, or None.
    #[getter]
    fn broken(&self) -> Option<i64> {
        place(self.found.broken())
    }

    /// What was taken so far, at the end all of it, as a dict: exposures, gaps, slices, redundant, refused, prefixes, views and others.
    #[getter]
    fn totals<'a>(&self, py: Python<'a>) -> PyResult<&'a PyDict> {
        let (t, told) = (self.found.totals(), PyDict::new(py));
        for (name, count) in [
            ("exposures", t.exposures),
            ("gaps", t.gaps),
            ("slices", t.slices),
            ("redundant", t.redundant),
            ("refused", t.refused),
            ("prefixes", t.prefixes),
            ("views", t.views),
            ("others", t.others),
        ] {
            told.set_item(name, count)?;
        }
        Ok(told)
    }
}

/// The reports of a recording, one after the other.
#[pyclass(module = "tuzmarghil")]
struct Reports {
    stream: Recording,
    name: String,
}

impl Reports {
    fn open(path: &Path, table: Option<&str>, framing: Option<&str>) -> PyResult<Reports> {
        let (stream, name) = open(path, table_of(table)?, framing)?;
        Ok(Reports { stream, name })
    }

    fn step<T>(&mut self, take: impl FnOnce(&StreamReport<'_>) -> T) -> PyResult<Option<T>> {
        let name = &self.name;
        let step = self.stream.next_unit();
        let step = step.map_err(|e| PyOSError::new_err(format!("{name}: {e}")))?;
        Ok(step.map(|r| take(&r)))
    }
}

#[pymethods]
impl Reports {
    fn __iter__(slf: PyRef<'_, Self>) -> PyRef<'_, Self> {
        slf
    }

    fn __next__(&mut self, py: Python<'_>) -> PyResult<Option<Report>> {
        py.check_signals()?;
        self.step(report)
    }

    /// At the end, the place of the broken length that ended a recording framed by length, or None.
    #[getter]
    fn broken(&self) -> Option<i64> {
        place(self.stream.broken())
    }
}

/// Sets to try things with, as words.
const SAMPLE: &str = "sps:0:1:0:0:4:2:0:0:1:99 pps:0:0:0:0:0:0:0:0:0:0:0:0:0";

/// The sets in words of text.
fn table_of(words: Option<&str>) -> PyResult<Table> {
    let mut table = Table::new();
    let lines = words
        .unwrap_or("")
        .lines()
        .map(|l| l.split('#').next().unwrap_or(""));
    for word in lines.flat_map(str::split_whitespace) {
        let put = table.put_word(word);
        put.map_err(|e| PyValueError::new_err(format!("{word:?}: {e}")))?;
    }
    Ok(table)
}

/// The units of a recording, as an iterator of plain objects. Its parameter sets are read as they come; `table` is the text of sets to start with, such as SAMPLE, for a
/// recording that lacks them. `framing` is 'start-codes', or 'length' for one whose units stand behind lengths of 4 bytes: where such a length is broken the units end, and
/// the iterator's `broken` is its place.
#[pyfunction]
fn reports(path: PathBuf, table: Option<&str>, framing: Option<&str>) -> PyResult<Reports> {
    Reports::open(&path, table, framing)
}

/// The kinds of a recording's units, as an iterator of plain objects: what their first bytes say. Bodies are not read. `framing` as in
/// `reports`.
#[pyfunction]
fn kinds(path: PathBuf, framing: Option<&str>) -> PyResult<Kinds> {
    let (stream, name) = open(&path, Table::new(), framing)?;
    Ok(Kinds { stream, name })
}

/// The exposures of a recording, that is its pictures, as an iterator of plain objects, whose `totals` counts what was taken. `table` and `framing` as
/// in `reports`.
#[pyfunction]
fn exposures(path: PathBuf, table: Option<&str>, framing: Option<&str>) -> PyResult<Exposures> {
    let (stream, name) = open(&path, table_of(table)?, framing)?;
    let found = stream.exposures();
    Ok(Exposures { found, name })
}

/// The final QP of each slice, and NaN for each refused unit and for a broken length, in their order: an array.array of doubles, which numpy.asarray takes without a
/// copy. `table` and `framing` as in `reports`.
#[pyfunction]
fn qp(
    py: Python<'_>,
    path: PathBuf,
    table: Option<&str>,
    framing: Option<&str>,
) -> PyResult<PyObject> {
    let mut all = Reports::open(&path, table, framing)?;
    let mut bytes = Vec::new();
    let of = |r: &StreamReport<'_>| match r.unit() {
        Ok(Unit::Slice(slice)) => Some(slice.qp as f64),
        Ok(_) => None,
        Err(_) => Some(f64::NAN),
    };
    while let Some(point) = all.step(of)? {
        if let Some(qp) = point {
            bytes.extend_from_slice(&qp.to_ne_bytes());
        }
        if bytes.len() % (1 << 16) == 0 {
            py.check_signals()?;
        }
    }
    if all.broken().is_some() {
        bytes.extend_from_slice(&f64::NAN.to_ne_bytes());
    }
    let array = py.import("array")?.getattr("array")?;
    Ok(array.call1(("d", PyBytes::new(py, &bytes)))?.into())
}

/// H.264 slice headers, read by a proved library.
#[pymodule]
fn tuzmarghil(_: Python<'_>, module: &PyModule) -> PyResult<()> {
    module.add("__version__", env!("CARGO_PKG_VERSION"))?;
    module.add("LAYOUT", ::tuzmarghil::LAYOUT)?;
    module.add("SAMPLE", SAMPLE)?;
    module.add_class::<Report>()?;
    module.add_class::<Reports>()?;
    module.add_class::<Kind>()?;
    module.add_class::<Kinds>()?;
    module.add_class::<Exposure>()?;
    module.add_class::<Exposures>()?;
    module.add_function(wrap_pyfunction!(reports, module)?)?;
    module.add_function(wrap_pyfunction!(kinds, module)?)?;
    module.add_function(wrap_pyfunction!(exposures, module)?)?;
    module.add_function(wrap_pyfunction!(qp, module)?)
}
