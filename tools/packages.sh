# Debian packages: which ones, and how they are installed. Sourced by tuz, tests/rust and tools/setup.

# The crates of rust/, and a compiler where there is none.
rust_packages="librust-anyhow-dev librust-clap-complete-dev librust-clap-dev librust-console-dev librust-csv-dev librust-indicatif-dev librust-libc-dev librust-serde-derive-dev librust-serde-json-dev"
cargo --version >/dev/null 2>&1 || rust_packages="$rust_packages cargo rustc rust-clippy"
command -v cc >/dev/null 2>&1 || rust_packages="$rust_packages gcc libc6-dev"
# The module for Python, and what tests it.
python_packages="librust-pyo3-dev python3 python3-dev python3-numpy"
# What tests the manual page.
manual_packages="groff-base"
# The libraries of the oracle, the encoders that made the clips, and ffmpeg, for longer clips to tear.
oracle_packages="librust-bitstream-io-dev librust-memchr-dev x264 libopenh264-dev ffmpeg"
# The peers of the benchmark, and what compiles them. GStreamer's pkg-config file asks for libunwind, which its package does not always bring.
peer_packages="gcc pkg-config libgstreamer-plugins-bad1.0-dev libunwind-dev libavcodec-dev"

# need PACKAGE..: installs those that are missing, as root or by sudo. Where it cannot, the status is 1 and $why says why.
need() {
  local missing="" package by=""
  for package in "$@"; do
    dpkg -s "$package" >/dev/null 2>&1 || missing="$missing $package"
  done
  [ -n "$missing" ] || return 0
  why="Debian packages are missing:$missing"
  if ! command -v apt-get >/dev/null; then
    why="$why; there is no apt-get"
    return 1
  fi
  if [ "$(id -u)" != 0 ]; then
    # a password can be asked for on a terminal alone
    by="sudo"
    [ -t 0 ] || by="sudo -n"
    if ! $by true 2>/dev/null; then
      why="$why; installing them needs root"
      return 1
    fi
  fi
  echo "installing Debian packages:$missing" >&2
  local options="-qq -o Acquire::Retries=2 -o Acquire::http::Timeout=30 -o DPkg::Lock::Timeout=300" log
  log=$(mktemp "${TMPDIR:-/tmp}/tuz-packages.XXXXXX")
  # lists that are there already may do
  # shellcheck disable=SC2086
  $by apt-get $options update >>"$log" 2>&1 || true
  # shellcheck disable=SC2086
  if ! $by env DEBIAN_FRONTEND=noninteractive apt-get $options install -y --no-install-recommends $missing >>"$log" 2>&1; then
    why="$why; apt-get could not install them: what it said is in $log"
    return 1
  fi
  rm -f "$log"
}
