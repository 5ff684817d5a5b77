# A system with the packages that ./check asks for. They were installed in a root of Debian 13; nobody has built the image or run ./check
# in it yet.
#
#     podman build -t yurewha-check .
#     podman run --rm -v "$PWD":/yurewha yurewha-check ./check
FROM debian:13
RUN apt-get update && apt-get install -y --no-install-recommends \
    cargo chromium chromium-driver clang cmake esbuild firefox-esr g++ g++-aarch64-linux-gnu g++-mingw-w64-x86-64 gcc gcc-aarch64-linux-gnu \
    gcc-mingw-w64-x86-64 gdb-multiarch git golang-go groff-base libc6-dev libc6-dev-arm64-cross libclang-rt-dev librust-bincode-dev \
    librust-bytemuck-dev librust-cc-dev librust-digest-dev librust-ron-dev librust-serde-derive-dev librust-serde-dev \
    librust-serde-json-dev lld llvm make musl-tools mypy node-typescript nodejs npm parallel \
    pkg-config pyflakes3 pypy3 python3 python3-build python3-clang python3-dask python3-distributed python3-fsspec python3-jsonschema \
    python3-numpy python3-pandas python3-pip python3-pytest python3-selenium python3-setuptools python3-setuptools-whl python3-venv \
    python3-wheel python3-wheel-whl python3-zarr qemu-user rust-clippy rustc rustfmt shellcheck time valgrind wine64 xz-utils
WORKDIR /yurewha
