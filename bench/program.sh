# Sets `program` to the program that is measured: $PROGRAM, or else the one that `run` builds from this repository.
# For the scripts beside it, which have set `here`.
program=${PROGRAM:-}
if [ -z "$program" ]; then
    bash "$here/../run" "$here/../examples/first.script" > /dev/null
    program=$here/../crates/ckptsim/out/ckptsim
fi
