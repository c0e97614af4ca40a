# Sourced by run, sample and bench. Installs what the harness needs and builds it; `harness` is then its path.
# ORIGINAL: the directory that holds the original's src/ (default: ../shared/docs/src beside the repository).
# ALONE=1: without our static libraries, so that nothing is compared.
set -euo pipefail
here=$(cd "$(dirname "${BASH_SOURCE[0]}")" && pwd)
top=$(dirname "$here")
harness=$here/target/release/differential
PATH=$PATH:$HOME/.cargo/bin
packages=(librust-anyhow-dev librust-indexmap-dev librust-byteorder-dev librust-memmap2-dev)

if [[ -n ${ORIGINAL:-} ]]; then
    ORIGINAL=$(realpath "$ORIGINAL")
    export ORIGINAL
fi
if ! dpkg -s "${packages[@]}" >/dev/null 2>&1; then
    apt-get update -qq >&2
    apt-get install -y -qq "${packages[@]}" >&2
fi
features=()
if [[ -n ${ALONE:-} ]]; then
    features=(--no-default-features)
else
    ("$top/bindings/library" capi_token && "$top/bindings/library" capi) >&2
fi
# cargo finds .cargo/config.toml by its working directory
(cd "$here" && cargo build --release --quiet "${features[@]}") >&2
