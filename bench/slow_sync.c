// Stands in for the system's syncs: each takes 50 ms longer.
#include <sys/syscall.h>
#include <unistd.h>

static int late(long call, int fd) {
    usleep(50000);
    return syscall(call, fd);
}

int fdatasync(int fd) { return late(SYS_fdatasync, fd); }

int fsync(int fd) { return late(SYS_fsync, fd); }
