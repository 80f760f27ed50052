/* The display's side of the device that shim.c plays: one screen of 1920 by 1080, by libdrm's calls. Frames are shown nowhere, and each flip is
 * done as soon as it is asked for. */
#include <stdlib.h>
#include <string.h>
#include <xf86drm.h>
#include <xf86drmMode.h>

enum { CONNECTOR = 1, ENCODER = 2, CRTC = 3 };

static uint32_t ids[] = {0, CONNECTOR, ENCODER, CRTC};
static drmModeModeInfo mode = {.clock = 148500, .hdisplay = 1920, .hsync_start = 2008, .hsync_end = 2052, .htotal = 2200, .vdisplay = 1080,
                               .vsync_start = 1084, .vsync_end = 1089, .vtotal = 1125, .vrefresh = 60,
                               .type = DRM_MODE_TYPE_PREFERRED | DRM_MODE_TYPE_DRIVER, .name = "1920x1080"};
static void *flipped;
static uint32_t frames;

static void *copy_of(const void *value, size_t size) {
    void *copy = malloc(size);
    return copy ? memcpy(copy, value, size) : NULL;
}

drmModeResPtr drmModeGetResources(int fd) {
    (void)fd;
    drmModeRes all = {.count_crtcs = 1, .crtcs = &ids[CRTC], .count_connectors = 1, .connectors = &ids[CONNECTOR], .count_encoders = 1,
                      .encoders = &ids[ENCODER], .max_width = 4096, .max_height = 4096};
    return copy_of(&all, sizeof all);
}

drmModeConnectorPtr drmModeGetConnector(int fd, uint32_t id) {
    (void)fd, (void)id;
    drmModeConnector screen = {.connector_id = CONNECTOR, .encoder_id = ENCODER, .connector_type = DRM_MODE_CONNECTOR_HDMIA, .connection = DRM_MODE_CONNECTED,
                               .count_modes = 1, .modes = &mode, .count_encoders = 1, .encoders = &ids[ENCODER]};
    return copy_of(&screen, sizeof screen);
}

drmModeEncoderPtr drmModeGetEncoder(int fd, uint32_t id) {
    (void)fd, (void)id;
    drmModeEncoder encoder = {.encoder_id = ENCODER, .crtc_id = CRTC, .possible_crtcs = 1};
    return copy_of(&encoder, sizeof encoder);
}

drmModeCrtcPtr drmModeGetCrtc(int fd, uint32_t id) {
    (void)fd, (void)id;
    drmModeCrtc crtc = {.crtc_id = CRTC, .width = mode.hdisplay, .height = mode.vdisplay, .mode_valid = 1, .mode = mode};
    return copy_of(&crtc, sizeof crtc);
}

void drmModeFreeResources(drmModeResPtr all) { free(all); }
void drmModeFreeConnector(drmModeConnectorPtr screen) { free(screen); }
void drmModeFreeEncoder(drmModeEncoderPtr encoder) { free(encoder); }
void drmModeFreeCrtc(drmModeCrtcPtr crtc) { free(crtc); }

int drmSetMaster(int fd) { return (void)fd, 0; }
int drmDropMaster(int fd) { return (void)fd, 0; }
int drmModeRmFB(int fd, uint32_t frame) { return (void)fd, (void)frame, 0; }

int drmModeSetCrtc(int fd, uint32_t crtc, uint32_t frame, uint32_t x, uint32_t y, uint32_t *connectors, int count, drmModeModeInfoPtr asked) {
    (void)fd, (void)crtc, (void)frame, (void)x, (void)y, (void)connectors, (void)count, (void)asked;
    return 0;
}

int drmModeAddFB2(int fd, uint32_t width, uint32_t height, uint32_t format, const uint32_t handles[4], const uint32_t pitches[4],
                  const uint32_t offsets[4], uint32_t *frame, uint32_t flags) {
    (void)fd, (void)width, (void)height, (void)format, (void)handles, (void)pitches, (void)offsets, (void)flags;
    *frame = ++frames;
    return 0;
}

int drmModePageFlip(int fd, uint32_t crtc, uint32_t frame, uint32_t flags, void *known) {
    (void)fd, (void)crtc, (void)frame, (void)flags;
    flipped = known;
    return 0;
}

int drmHandleEvent(int fd, drmEventContextPtr context) {
    void *known = flipped;
    flipped = NULL;
    if (known && context->page_flip_handler) context->page_flip_handler(fd, 0, 0, 0, known);
    return 0;
}
