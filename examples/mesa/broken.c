/* A preload library before shim.so, which plays a driver with a mistake: it asks for half of what a large buffer needs, as one would that
 * counts a texture's size without its levels. */
#define _GNU_SOURCE
#include <dlfcn.h>
#include <stdarg.h>
#include <vc4_drm.h>

enum { LARGE = 32768 };

int ioctl(int fd, unsigned long request, ...) {
    static int (*next)(int, unsigned long, ...);
    va_list rest;
    va_start(rest, request);
    void *argument = va_arg(rest, void *);
    va_end(rest);
    if (!next) next = (int (*)(int, unsigned long, ...))dlsym(RTLD_NEXT, "ioctl");
    struct drm_vc4_create_bo *asked = argument;
    if (request == DRM_IOCTL_VC4_CREATE_BO && asked->size >= LARGE) asked->size /= 2;
    return next(fd, request, argument);
}
