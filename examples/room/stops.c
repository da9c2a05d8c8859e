/*
 * Linked with --wrap=rename, it makes a `room` that stops itself (SIGSTOP) in the middle of a filing: the
 * new cache is written beside the old one, and not yet in its place. The scenes kill it there, or let it
 * go on.
 */
#include <signal.h>

int __real_rename(const char *from, const char *to);
int __wrap_rename(const char *from, const char *to);

int __wrap_rename(const char *from, const char *to)
{
    raise(SIGSTOP);
    return __real_rename(from, to);
}
