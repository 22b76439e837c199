#!/bin/sh
# Proves the library and builds target/lib/librokzimp.a and target/lib/librokzimp.so (x86-64 Linux).
set -e
cd "$(dirname "$0")/.."
(cd crates/capi_c && rt lib)
mkdir -p target/lib
cp crates/capi_c/out/libcapi_c.a target/lib/librokzimp.a
gcc -shared -o target/lib/librokzimp.so -Wl,--whole-archive target/lib/librokzimp.a -Wl,--no-whole-archive -Wl,-soname,librokzimp.so
echo "built target/lib/librokzimp.a and target/lib/librokzimp.so"
