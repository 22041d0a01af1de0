#!/bin/bash -eu
# Builds the target into $OUT, over the release archive that is unpacked in $SRC, and beside it its options, its seed
# corpus and its dictionary.
target=component_fuzzer
release=$(echo "$SRC"/lupinanon-*-x86_64-linux)
library=$release/lib/liblupinanon.a
libfuzzer=$release/examples/libfuzzer
include="-I $release/include -I $release/examples/c"
# What limits there are: -DSWARM, -DMUST_VALIDATE=0 or nothing.
limits=${LIMITS-}

# What you test is compiled and linked here, with these flags. LDLIBS, if it is set, is linked too.
$CC $CFLAGS $include -c "$SRC/use_component.c" -o "$WORK/use_component.o"
$CC $CFLAGS $limits $include -c "$libfuzzer/target.c" -o "$WORK/target.o"
$CXX $CXXFLAGS "$WORK/target.o" "$WORK/use_component.o" "$library" ${LDLIBS-} $LIB_FUZZING_ENGINE -o "$OUT/$target"

printf '[libfuzzer]\nmax_len = 4096\n' >"$OUT/$target.options"

# What runs here is built without the flags of the engine.
$CC -O1 $limits $include "$libfuzzer/dictionary.c" "$library" -o "$WORK/dictionary"
"$WORK/dictionary" >"$OUT/$target.dict"

# The first corpus of the archive, which is drawn within the limits of the target.
case $limits in
*SWARM*) corpus=corpus-swarm ;;
*) corpus=corpus ;;
esac
zip -q -j "$OUT/${target}_seed_corpus.zip" "$release/share/lupinanon/$corpus"/*
