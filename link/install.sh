#!/usr/bin/env bash
# Build the proved library and put it where C and Rust look for it: link/install.sh PREFIX
# gives PREFIX/include/gateway.h, PREFIX/lib/libgateway.a and PREFIX/lib/pkgconfig/gateway.pc, so that
#     cc driver.c $(pkg-config --cflags --libs gateway)
# works with PKG_CONFIG_PATH=PREFIX/lib/pkgconfig. DESTDIR goes in front of all three, as usual.
set -eu
if [ $# -ne 1 ] || [ "$1" = --help ]; then
    sed -n 's/^# //p' "$0" >&2
    exit 2
fi
case $1 in
/*) prefix=$1 ;;
*) prefix=$PWD/$1 ;;
esac
unset CDPATH
cd "$(dirname "$(readlink -f "$0")")/.."
library=target/staticlib/libgateway.a
link/library.sh
version=$(sed -n 's/^#define GATEWAY_VERSION "\(.*\)"$/\1/p' link/gateway.h)
place=${DESTDIR:-}$prefix
mkdir -p "$place/include" "$place/lib/pkgconfig"
install -m 644 link/gateway.h "$place/include/gateway.h"
install -m 644 $library "$place/lib/libgateway.a"
cat >"$place/lib/pkgconfig/gateway.pc" <<END
prefix=$prefix
libdir=\${prefix}/lib
includedir=\${prefix}/include

Name: gateway
Description: The dispatcher of one core of an order gateway, proved to keep to its rules
Version: $version
Cflags: -I\${includedir}
Libs: -L\${libdir} -lgateway
END
echo "installed in $prefix"
