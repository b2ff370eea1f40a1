#!/usr/bin/env bash
# Reads packets and logs of some twenty to sixty bytes that claim lists of up to 4,294,967,295 members, a source of 1,048,576
# bytes, millions of events and a trace of 18,446,744,073,709,551,615 bytes, each of which is refused; and has each command
# of the program read such logs, or a short text with the largest budget, as many workers as may be and the largest
# declared counts. None of them may ask for room by what is claimed: where one allocation of the crates asked for more
# than 4,096 bytes, or one of the program for more than 8,192, the status is 1.
# Prints how large the largest one was.
set -eu
. "$(dirname "$0")/scratch.sh"
. "$(dirname "$0")/program.sh"

# Stands before the allocator of the system, and notes the largest room that is asked for at once.
cat >"$work/largest.c" <<'C'
#define _GNU_SOURCE
#include <dlfcn.h>
#include <stdio.h>
#include <stdlib.h>
#include <sys/syscall.h>
#include <unistd.h>

static void *(*real_malloc)(size_t);
static void *(*real_realloc)(void *, size_t);
static size_t largest;

static void asked(size_t size) {
    if (!real_malloc) {
        real_malloc = dlsym(RTLD_NEXT, "malloc");
        real_realloc = dlsym(RTLD_NEXT, "realloc");
    }
    if (largest < size)
        largest = size;
}

void *malloc(size_t size) {
    asked(size);
    return real_malloc(size);
}

void *realloc(void *old, size_t size) {
    asked(size);
    return real_realloc(old, size);
}

__attribute__((destructor)) static void note(void) {
    size_t of_program = largest;
    FILE *file = fopen(getenv("LARGEST"), "w");
    if (file) {
        fprintf(file, "%zu\n", of_program);
        fclose(file);
    }
}

/* A program that may start threads ends by this, and no destructor runs. */
void _exit(int status) {
    note();
    syscall(SYS_exit_group, status);
    __builtin_unreachable();
}
C
cc -O1 -shared -fPIC -o "$work/largest.so" "$work/largest.c" -ldl

others=0
# asks STATUS WORD..: the program with these words on the file in must end with this status and ask for little at once
asks() {
    local wanted=$1 status=0 largest
    shift
    LARGEST=$work/largest LD_PRELOAD=$work/largest.so "$JOIN_PROGRAM" "$@" <"$work/in" >"$work/told" 2>&1 || status=$?
    largest=$(<"$work/largest")
    echo "$(head -n 1 "$work/told") by $*: the largest allocation asked for $largest bytes"
    [ "$status" = "$wanted" ] && [ "$largest" -le 8192 ] || others=1
}

for claim in 'source 1048576' $'source 0\n\nbudget 4000000\nevents 4000000\ntrace 0' \
    $'source 0\n\nbudget 4000000\nevents 4000000\nhalt 0.1' $'source 0\n\nbudget 4000000\nevents 0\ntrace 18446744073709551615'; do
    printf 'joinlog 2\n%s\n' "$claim" >"$work/in"
    asks 8 check
    asks 8 explain
done
echo 'observe out/255; observe in_all/255; site s [ none : 0 ]' >"$work/in"
for command in alone 'rounds --workers 16' 'run --workers 16' 'lossy --loss 3'; do
    # shellcheck disable=SC2086
    asks 0 $command --budget 4000000
done
asks 7 sorts

scratch claims_bench chem_model chem_laws chem_plain chem_commit trace_history trace_text wire_packet <<'PROGRAM'
//! Reads packets and logs that claim more than they have.
#![tactic(auto)]

use trace_text::read_log;
use wire_packet::decode;

const PACKETS: &[&[u8]] = &[
    // groups, waiting messages, requests
    &[2, 0, 0, 0, 0, 0, 0, 0, 0, 0, 0, 0, 1, 255, 255, 255, 255, 0, 0, 0, 1],
    &[2, 0, 0, 0, 0, 0, 0, 0, 0, 0, 0, 0, 1, 0, 0, 0, 0, 255, 255, 255, 255, 0, 0, 0, 1],
    &[2, 0, 0, 0, 0, 0, 0, 0, 0, 0, 0, 0, 1, 0, 0, 0, 0, 0, 0, 0, 0, 255, 255, 255, 255, 0, 0, 0, 1],
    // the names of an environment
    &[
        2, 0, 0, 0, 0, 0, 0, 0, 0, 0, 0, 0, 1, 0, 0, 0, 1, 0, 0, 0, 1, 0, 0, 0, 0, 0, 0, 0, 0, 0, 0, 0, 2, 0, 0, 0, 0, 0,
        0, 0, 0, 0, 0, 0, 3, 255, 255, 255, 255, 0, 0, 0, 0, 0, 0, 0, 0,
    ],
    // the arguments of a message
    &[1, 0, 0, 0, 0, 0, 0, 0, 0, 0, 0, 0, 5, 0, 0, 0, 0, 0, 255, 0, 0, 0, 0, 7],
];

const LOGS: &[&[u8]] = &[
    b"joinlog 1\nsource 1048576\n",
    b"joinlog 1\nsource 0\n\nbudget 1000000\nevents 1000000\ntrace 0\n",
    b"joinlog 1\nsource 0\n\nbudget 1000000\nevents 1000000\nhalt 0.1\n",
    b"joinlog 1\nsource 0\n\nbudget 0\nevents 0\ntrace 18446744073709551615\n",
];

fn main(rt: HostRuntime) -> Result<(), anyhow::Error> {
    let alloc = rt.alloc();
    for bytes in PACKETS {
        println!(rt; "a packet is refused: {}", decode(alloc, *bytes).is_err())?;
    }
    for bytes in LOGS {
        println!(rt; "a log is refused: {}", read_log(alloc, *bytes).is_err())?;
    }
    Ok(())
}
PROGRAM

: >stdin
build
LARGEST=$work/largest LD_PRELOAD=$work/largest.so out/claims_bench >told
cat told
largest=$(<"$work/largest")
echo "the largest allocation asked for $largest bytes"
[ "$(grep -c 'refused: true$' told)" = 9 ] && [ "$largest" -le 4096 ] && [ "$others" = 0 ]
