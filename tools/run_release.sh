#!/bin/bash
# Compares the program in release/ with the one that rt ci has proved and built, byte for byte, where it is that of the present
# sources and this kit has built it; else says so, and nothing passes or fails. A program with another sum than release/sources
# tells of fails in each case. The last line is 'N passed, M failed', and the status is 0 where none failed.
#   --make         puts the built program into release/ instead, where it is known to be that of the present sources
#   --proved SUM   keeps that the gate has proved and built the program of the sources with this sum; that of the present ones
#   --sum          prints that sum
cd "$(dirname "$(realpath "$0")")/.." || exit
. tools/program.sh

refuse() {
    echo "$1" >&2
    exit 1
}

# Has rt tell that the built program is that of the present sources, or build it; that is quick where it has just done so.
ask_rt() {
    echo "asking rt whether the built program is that of these sources" >&2
    [[ $(cd crates/sdfg && rt run -- 2>&1 >/dev/null </dev/null) == *"rt: running out/sdfg"* ]]
}

make() {
    local sum kit
    is_newest || refuse "the built program is missing or older than its sources"
    is_proved || ask_rt || refuse "the built program is not known to be that of these sources: .ci/run builds it"
    is_newest || refuse "the sources were edited meanwhile"
    starts "$program" || refuse "the built program does not start"
    sum=$(bytes_sum <"$program") && kit=$(rt version) && [[ $kit ]] || refuse "rt does not tell its kit"
    mkdir -p release && xz -9 --extreme --check=crc64 <"$program" >"$release" &&
        { bound "$sum" "$kit" && echo "$sum" && echo "$kit"; } >release/sources
}

case ${1-} in
--make) make && exit ;;
--sum) sources && exit ;;
--proved) is_newest && is_sum "${2-}" && keep_proved "$2" && exit ;;
esac
if [[ ${1-} ]]; then
    exit 1
elif [[ -f $release && $(unpack | bytes_sum) != "$(told 2)" ]]; then
    echo "release/ has another program than the one that release/sources tells of"
    echo "0 passed, 1 failed"
    exit 1
elif ! is_released; then
    echo "release/ has the program of other sources: tools/run_release.sh --make renews it"
    echo "0 passed, 0 failed"
elif [[ $(rt version) != "$(told 3)" ]]; then
    echo "release/ has the program that another kit has built: $(told 3)"
    echo "0 passed, 0 failed"
elif unpack | cmp - "$program"; then
    echo "1 passed, 0 failed"
else
    echo "release/ has another program than the one that was built"
    echo "0 passed, 1 failed"
    exit 1
fi
