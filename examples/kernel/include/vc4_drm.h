/* The kernel has its own. */
#include <uapi/drm/vc4_drm.h>
