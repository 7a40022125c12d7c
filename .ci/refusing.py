"""A library before the C library's, which counts the growths of a program and refuses it one of them.

It reads three variables: REFUSED has the number of the growth that is refused, 0 for none; COUNT names a file of 8 bytes
that gets the count; and where MARKED is set, growths count between two lines of the program's output alone, each written
by itself: `growths count` and `growths rest`. Else they count from the process's beginning on."""
import os
import subprocess
import sys

SOURCE = r"""
#define _GNU_SOURCE
#include <dlfcn.h>
#include <fcntl.h>
#include <stdlib.h>
#include <string.h>
#include <sys/mman.h>
#include <unistd.h>
static long none, *count, refused;
static int is_marked, rests;
static void *(*next_malloc)(size_t), *(*next_realloc)(void *, size_t);
static ssize_t (*next_write)(int, const void *, size_t);
static void begin(void) {
  next_malloc = dlsym(RTLD_NEXT, "malloc");
  next_realloc = dlsym(RTLD_NEXT, "realloc");
  next_write = dlsym(RTLD_NEXT, "write");
  refused = atol(getenv("REFUSED"));
  is_marked = rests = getenv("MARKED") != NULL;
  count = mmap(NULL, sizeof none, PROT_READ | PROT_WRITE, MAP_SHARED, open(getenv("COUNT"), O_RDWR), 0);
  if (count == MAP_FAILED) count = &none;
}
static int is_refused(void) {
  if (!count) begin();
  return !rests && __atomic_add_fetch(count, 1, __ATOMIC_SEQ_CST) == refused;
}
void *malloc(size_t size) { return is_refused() ? NULL : next_malloc(size); }
void *realloc(void *old, size_t size) { return is_refused() ? NULL : next_realloc(old, size); }
static int is_line(const void *bytes, size_t size, const char *line) {
  return size == strlen(line) && memcmp(bytes, line, size) == 0;
}
ssize_t write(int file, const void *bytes, size_t size) {
  if (!count) begin();
  if (is_marked && is_line(bytes, size, "growths count\n")) rests = 0;
  if (is_marked && is_line(bytes, size, "growths rest\n")) rests = 1;
  return next_write(file, bytes, size);
}
"""


def built(folder):
    """The library, compiled in a folder."""
    source, library = folder / "refuse.c", folder / "refuse.so"
    source.write_text(SOURCE)
    subprocess.run(["cc", "-shared", "-fPIC", "-O1", "-o", library, source, "-ldl"], check=True)
    return library


def run(words, library, count, refused=0, marked=False):
    """What a program does with the words where the growth of the number is refused, and how many growths it asked for."""
    count.write_bytes(bytes(8))
    given = os.environ | {"LD_PRELOAD": str(library), "REFUSED": str(refused), "COUNT": str(count)}
    if marked:
        given["MARKED"] = "yes"
    done = subprocess.run(words, capture_output=True, text=True, timeout=60, env=given)
    return (done.returncode, done.stdout, done.stderr), int.from_bytes(count.read_bytes(), sys.byteorder)
