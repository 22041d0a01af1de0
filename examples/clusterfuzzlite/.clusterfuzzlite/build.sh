#!/bin/bash -eu
# Builds the target into $OUT, over the release archive that is unpacked in $SRC, as its project for OSS-Fuzz does.

# What you test is built here, with $CC or $CXX and their flags, and linked by LDLIBS. LIMITS may be -DSWARM or
# -DMUST_VALIDATE=0.
export LDLIBS= LIMITS=

bash -eu "$(echo "$SRC"/lupinanon-*-x86_64-linux)/examples/oss-fuzz/build.sh"
