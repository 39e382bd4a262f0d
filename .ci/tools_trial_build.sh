# Rows of what bench/trial_build refuses, before it builds anything, for .ci/test_tools, which has the functions.

# A row for what may not be built: its NAME, what is SAID, and the WORDS
no_build() {
    local name=$1 said=$2
    shift 2
    call python3 bench/trial_build "$@"
    row "no build: $name" 2 "" "trial_build: $said"
}

no_build "no program" "the following arguments are required: PROGRAM"
no_build "a folder that is not there" "there is no folder $room/nosuch" "$room/nosuch/program"
no_build "a folder" "$room is a folder" "$room"
no_build "a file of another kind" "$room/program is there, and was not built by this command" "$room/program"
no_build "a device" "/dev/full is there, and was not built by this command" /dev/full
no_build "the place of the proved program" "$PWD/crates/ckptsim/ckptsim is in $PWD/crates, where only what is proved is built" \
    crates/ckptsim/ckptsim
no_build "a root that is no repository" "$room is no repository: it has no crates.txt, or no folder crates/ckptsim" \
    "$room/new" "$room"

# A repository without a toolchain: what gets as far as that may be built.
mkdir -p "$room/root/crates/ckptsim"
: > "$room/root/crates.txt"
printf 'any bytes\nbuilt unproved by bench/trial_build\n' > "$room/own"
python=$(python3 -c 'import sys; print(sys.executable)')
for program in own new; do
    call env PATH="$room/nosuch" "$python" bench/trial_build "$room/$program" "$room/root"
    row "a program of its own, or a new one: $program" 1 "" "trial_build: rt: No such file or directory"
done
head -n 1 "$room/own" > "$room/printed"
row "what was there stays" 1 "any bytes" "trial_build: rt: No such file or directory"
no_build "into the crates of another repository" "$room/root/crates/new is in $room/root/crates, where only what is proved is built" \
    "$room/root/crates/new"
