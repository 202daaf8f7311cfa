/* What a library that is loaded before a bridge's own shares with the tool that loads it: a file that both map. */
#include <fcntl.h>
#include <stdlib.h>
#include <sys/mman.h>
#include <unistd.h>

/* The file that a variable names, of so many octets. The program ends where there is none. */
static void *mapped_control(const char *variable, size_t size)
{
    const char *path = getenv(variable);
    int file = path ? open(path, O_RDWR) : -1;
    void *mapped = file < 0 ? MAP_FAILED : mmap(0, size, PROT_READ | PROT_WRITE, MAP_SHARED, file, 0);
    if (mapped == MAP_FAILED)
        _exit(127);
    close(file);
    return mapped;
}
