# Read by the scripts beside it: makes a folder of its own where there is none, which is removed at the end, with a library
# that refuses a program's allocations, on whichever of its threads.

root=$(cd "$(dirname "${BASH_SOURCE[0]}")/.." && pwd)
if [ -z "${work:-}" ]; then
    work=$(mktemp -d)
    trap 'rm -rf "$work"' EXIT
fi

# Stands before the allocator of the system, and notes how often it was asked and how often it refused.
cat >"$work/refusing.c" <<'C'
#define _GNU_SOURCE
#include <dlfcn.h>
#include <errno.h>
#include <stdio.h>
#include <stdlib.h>
#include <sys/syscall.h>
#include <unistd.h>

static void *(*real_malloc)(size_t);
static void *(*real_realloc)(void *, size_t);
static long asked, refused, first, last;

static int refuses(void) {
    if (!real_malloc) {
        real_malloc = dlsym(RTLD_NEXT, "malloc");
        real_realloc = dlsym(RTLD_NEXT, "realloc");
        first = atol(getenv("REFUSE_FIRST"));
        last = atol(getenv("REFUSE_LAST"));
    }
    long number = __atomic_add_fetch(&asked, 1, __ATOMIC_SEQ_CST);
    if (number < first || last < number)
        return 0;
    __atomic_add_fetch(&refused, 1, __ATOMIC_SEQ_CST);
    errno = ENOMEM;
    return 1;
}

void *malloc(size_t size) { return refuses() ? NULL : real_malloc(size); }

void *realloc(void *old, size_t size) { return refuses() ? NULL : real_realloc(old, size); }

__attribute__((destructor)) static void note(void) {
    long of_program = refused;
    last = 0;
    FILE *file = fopen(getenv("REFUSED"), "w");
    if (file) {
        fprintf(file, "%ld\n", of_program);
        fclose(file);
    }
}

/* A program that may start threads ends by this, and no destructor runs. */
void _exit(int status) {
    note();
    syscall(SYS_exit_group, status);
    __builtin_unreachable();
}
C
cc -O1 -shared -fPIC -o "$work/refusing.so" "$work/refusing.c" -ldl

# refusing FIRST LAST PROGRAM WORD..: runs the program with the allocations refused from the one number to the other, and
# answers its status, or 124 where it didn't end within ten seconds. How many were refused stands in the file refused.
refusing() {
    local first=$1 last=$2
    shift 2
    : >"$work/refused"
    timeout 10 env REFUSE_FIRST="$first" REFUSE_LAST="$last" REFUSED="$work/refused" LD_PRELOAD="$work/refusing.so" "$@"
}
