/* scenes [FRAMES [NAME..]]: draws small scenes by OpenGL ES 2, each for so many frames (40), on the device of shim.c. Each scene makes a
 * driver use another part of the processor. */
#include <EGL/egl.h>
#include <EGL/eglext.h>
#include <GLES2/gl2.h>
#include <GLES2/gl2ext.h>
#include <fcntl.h>
#include <gbm.h>
#include <stdio.h>
#include <stdlib.h>
#include <string.h>

enum { DEPTH = 1, STENCIL = 2, BLEND = 4, SCISSOR = 8, MIPMAPS = 16, CUBE = 32, ETC1 = 64, TWICE = 128, INDEXES = 256, WIDE = 512,
       MANY = 1024, THROUGH = 2048, ODD = 4096, COPIED = 8192, PARTS = 16384, LARGE = 32768 };

struct scene {
    const char *name, *vertex, *fragment;
    GLenum mode;
    unsigned flags;
    GLenum format, type; /* of its texture; 0: none */
};

#define PLACE "attribute vec4 place; attribute vec4 extra; varying vec4 v; uniform float time; uniform vec4 table[16]; "
#define FRAGMENT "precision mediump float; varying vec4 v; uniform float time; uniform vec4 table[16]; uniform sampler2D one; uniform sampler2D two; uniform samplerCube cube; "
#define PLAIN PLACE "void main() { gl_Position = place; v = extra; gl_PointSize = 8.0; }"
#define TURNED PLACE "void main() { float c = cos(time), s = sin(time); gl_Position = mat4(c, s, 0, 0, -s, c, 0, 0, 0, 0, 1, 0, 0, 0, 0, 1) * place; v = extra; }"
#define COLOUR FRAGMENT "void main() { gl_FragColor = v; }"
#define TEXTURE FRAGMENT "void main() { gl_FragColor = texture2D(one, v.xy + time); }"

static const struct scene scenes[] = {
    {"clear", NULL, NULL, 0, 0, 0, 0},
    {"flat", PLAIN, FRAGMENT "void main() { gl_FragColor = vec4(time, 0.5, 1.0, 1.0); }", GL_TRIANGLES, 0, 0, 0},
    {"coloured", PLAIN, COLOUR, GL_TRIANGLES, 0, 0, 0},
    {"turned", TURNED, COLOUR, GL_TRIANGLES, 0, 0, 0},
    {"strip", PLAIN, COLOUR, GL_TRIANGLE_STRIP, 0, 0, 0},
    {"fan", PLAIN, COLOUR, GL_TRIANGLE_FAN, 0, 0, 0},
    {"lines", PLAIN, COLOUR, GL_LINES, 0, 0, 0},
    {"loop", PLAIN, COLOUR, GL_LINE_LOOP, 0, 0, 0},
    {"points", PLAIN, FRAGMENT "void main() { gl_FragColor = vec4(gl_PointCoord, 0.0, 1.0); }", GL_POINTS, 0, 0, 0},
    {"indexed", TURNED, COLOUR, GL_TRIANGLES, INDEXES, 0, 0},
    {"depth", TURNED, COLOUR, GL_TRIANGLES, DEPTH | TWICE, 0, 0},
    {"stencil", TURNED, COLOUR, GL_TRIANGLES, STENCIL | TWICE, 0, 0},
    {"blended", TURNED, COLOUR, GL_TRIANGLES, BLEND | TWICE, 0, 0},
    {"scissored", TURNED, COLOUR, GL_TRIANGLES, SCISSOR, 0, 0},
    {"many draws", TURNED, COLOUR, GL_TRIANGLES, MANY | DEPTH, 0, 0},
    {"textured", PLAIN, TEXTURE, GL_TRIANGLES, 0, GL_RGBA, GL_UNSIGNED_BYTE},
    {"textured 565", PLAIN, TEXTURE, GL_TRIANGLES, 0, GL_RGB, GL_UNSIGNED_SHORT_5_6_5},
    {"textured 4444", PLAIN, TEXTURE, GL_TRIANGLES, 0, GL_RGBA, GL_UNSIGNED_SHORT_4_4_4_4},
    {"luminance", PLAIN, TEXTURE, GL_TRIANGLES, ODD, GL_LUMINANCE, GL_UNSIGNED_BYTE},
    {"alpha", PLAIN, TEXTURE, GL_TRIANGLES, BLEND, GL_ALPHA, GL_UNSIGNED_BYTE},
    {"levels", PLAIN, TEXTURE, GL_TRIANGLES, MIPMAPS, GL_RGBA, GL_UNSIGNED_BYTE},
    {"large texture", PLAIN, TEXTURE, GL_TRIANGLES, MIPMAPS | LARGE, GL_RGBA, GL_UNSIGNED_BYTE},
    {"odd sizes", PLAIN, TEXTURE, GL_TRIANGLES, ODD, GL_RGBA, GL_UNSIGNED_BYTE},
    {"cube", PLAIN, FRAGMENT "void main() { gl_FragColor = textureCube(cube, v.xyz - 0.5); }", GL_TRIANGLES, CUBE, GL_RGBA, GL_UNSIGNED_BYTE},
    {"compressed", PLAIN, TEXTURE, GL_TRIANGLES, ETC1, GL_RGBA, GL_UNSIGNED_BYTE},
    {"two textures", PLAIN, FRAGMENT "void main() { gl_FragColor = texture2D(one, v.xy) * texture2D(two, v.yx + time); }", GL_TRIANGLES, 0, GL_RGBA, GL_UNSIGNED_BYTE},
    {"four samples", PLAIN, FRAGMENT "void main() { vec4 c = vec4(0.0); for (int i = 0; i < 4; i++) c += texture2D(one, v.xy * float(i + 1)); gl_FragColor = c * 0.25; }", GL_TRIANGLES, MIPMAPS, GL_RGBA, GL_UNSIGNED_BYTE},
    {"dependent read", PLAIN, FRAGMENT "void main() { gl_FragColor = texture2D(two, texture2D(one, v.xy).xy); }", GL_TRIANGLES, 0, GL_RGBA, GL_UNSIGNED_BYTE},
    {"uploaded in parts", PLAIN, TEXTURE, GL_TRIANGLES, PARTS, GL_RGBA, GL_UNSIGNED_BYTE},
    {"copied", PLAIN, TEXTURE, GL_TRIANGLES, COPIED, GL_RGBA, GL_UNSIGNED_BYTE},
    {"drawn into", PLAIN, TEXTURE, GL_TRIANGLES, THROUGH, GL_RGBA, GL_UNSIGNED_BYTE},
    {"table in the vertex shader", PLACE "void main() { gl_Position = place + 0.1 * table[int(extra.x * 15.0)]; v = extra; }", COLOUR, GL_TRIANGLES, 0, 0, 0},
    {"table in the fragment shader", PLAIN, FRAGMENT "void main() { gl_FragColor = table[int(v.x * 15.0)]; }", GL_TRIANGLES, 0, 0, 0},
    {"table, then a texture", PLAIN, FRAGMENT "void main() { gl_FragColor = texture2D(one, v.xy + table[int(v.x * 15.0)].xy); }", GL_TRIANGLES, 0, GL_RGBA, GL_UNSIGNED_BYTE},
    {"loop that ends late", PLAIN, FRAGMENT "void main() { float a = 0.0; for (int i = 0; i < 100; i++) { a += v.x * 0.01; if (a > time) break; } gl_FragColor = vec4(a); }", GL_TRIANGLES, 0, 0, 0},
    {"branches", PLAIN, FRAGMENT "void main() { if (v.x > time) { if (v.y > 0.5) discard; gl_FragColor = vec4(sin(v.x), cos(v.y), exp2(v.z), 1.0); } else gl_FragColor = sqrt(v); }", GL_TRIANGLES, 0, 0, 0},
    {"functions", PLACE "void main() { gl_Position = place; v = pow(abs(extra), vec4(1.0 + time)) + log2(1.0 + abs(extra)) * inversesqrt(2.0 + extra); }", COLOUR, GL_TRIANGLES, 0, 0, 0},
    {"wide frame", TURNED, COLOUR, GL_TRIANGLES, WIDE | DEPTH, 0, 0},
    {"wide and textured", PLAIN, TEXTURE, GL_TRIANGLES, WIDE | MIPMAPS, GL_RGBA, GL_UNSIGNED_BYTE},
};

static GLuint compiled(GLenum kind, const char *text) {
    GLuint shader = glCreateShader(kind);
    GLint good;
    char said[1024] = "";
    glShaderSource(shader, 1, &text, NULL);
    glCompileShader(shader);
    glGetShaderiv(shader, GL_COMPILE_STATUS, &good);
    if (good) return shader;
    glGetShaderInfoLog(shader, sizeof said, NULL, said);
    fprintf(stderr, "scenes: %s\n", said);
    exit(1);
}

static GLuint program_of(const struct scene *scene) {
    GLuint program = glCreateProgram();
    glAttachShader(program, compiled(GL_VERTEX_SHADER, scene->vertex));
    glAttachShader(program, compiled(GL_FRAGMENT_SHADER, scene->fragment));
    glBindAttribLocation(program, 0, "place");
    glBindAttribLocation(program, 1, "extra");
    glLinkProgram(program);
    glUseProgram(program);
    glUniform1i(glGetUniformLocation(program, "one"), 0);
    glUniform1i(glGetUniformLocation(program, "two"), 1);
    glUniform1i(glGetUniformLocation(program, "cube"), 0);
    return program;
}

static void fill(GLenum target, const struct scene *scene, int side, int height) {
    static unsigned char pixels[1024 * 1024 * 4];
    for (size_t i = 0; i < sizeof pixels; i++) pixels[i] = (unsigned char)(i * 7 + (i >> 9));
    if (scene->flags & ETC1) {
        glCompressedTexImage2D(target, 0, GL_ETC1_RGB8_OES, side, height, 0, (side + 3) / 4 * ((height + 3) / 4) * 8, pixels);
    } else if (scene->flags & PARTS) {
        glTexImage2D(target, 0, scene->format, side, height, 0, scene->format, scene->type, NULL);
        for (int y = 0; y + 16 <= height; y += 16) glTexSubImage2D(target, 0, 8, y, side - 8, 16, scene->format, scene->type, pixels);
    } else {
        glTexImage2D(target, 0, scene->format, side, height, 0, scene->format, scene->type, pixels);
    }
}

static void bind_texture(const struct scene *scene, int unit) {
    GLenum target = scene->flags & CUBE ? GL_TEXTURE_CUBE_MAP : GL_TEXTURE_2D;
    int side = scene->flags & LARGE ? 1024 : scene->flags & ODD ? 100 : 128, height = scene->flags & ODD ? 37 : side;
    GLuint texture;
    glGenTextures(1, &texture);
    glActiveTexture(GL_TEXTURE0 + unit);
    glBindTexture(target, texture);
    for (GLenum face = 0; face < (scene->flags & CUBE ? 6 : 1); face++)
        fill(scene->flags & CUBE ? GL_TEXTURE_CUBE_MAP_POSITIVE_X + face : target, scene, side, height);
    if (scene->flags & COPIED) glCopyTexSubImage2D(GL_TEXTURE_2D, 0, 0, 0, 0, 0, 64, 64);
    if (scene->flags & MIPMAPS) glGenerateMipmap(target);
    glTexParameteri(target, GL_TEXTURE_MIN_FILTER, scene->flags & MIPMAPS ? GL_LINEAR_MIPMAP_NEAREST : GL_LINEAR);
    glTexParameteri(target, GL_TEXTURE_WRAP_S, scene->flags & ODD ? GL_CLAMP_TO_EDGE : GL_REPEAT);
    glTexParameteri(target, GL_TEXTURE_WRAP_T, scene->flags & ODD ? GL_CLAMP_TO_EDGE : GL_REPEAT);
}

/* A frame buffer of its own: a colour texture, with depth and stencil where the scene asks for them. */
static GLuint frame_of(unsigned flags, int width, int height) {
    GLuint frame, colour, deep;
    glGenFramebuffers(1, &frame);
    glBindFramebuffer(GL_FRAMEBUFFER, frame);
    glActiveTexture(GL_TEXTURE2);
    glGenTextures(1, &colour);
    glBindTexture(GL_TEXTURE_2D, colour);
    glTexImage2D(GL_TEXTURE_2D, 0, GL_RGBA, width, height, 0, GL_RGBA, GL_UNSIGNED_BYTE, NULL);
    glFramebufferTexture2D(GL_FRAMEBUFFER, GL_COLOR_ATTACHMENT0, GL_TEXTURE_2D, colour, 0);
    if (!(flags & (DEPTH | STENCIL))) return frame;
    glGenRenderbuffers(1, &deep);
    glBindRenderbuffer(GL_RENDERBUFFER, deep);
    glRenderbufferStorage(GL_RENDERBUFFER, GL_DEPTH24_STENCIL8_OES, width, height);
    glFramebufferRenderbuffer(GL_FRAMEBUFFER, GL_DEPTH_ATTACHMENT, GL_RENDERBUFFER, deep);
    glFramebufferRenderbuffer(GL_FRAMEBUFFER, GL_STENCIL_ATTACHMENT, GL_RENDERBUFFER, deep);
    return frame;
}

static void set_up(unsigned flags) {
    static const struct { unsigned flag; GLenum what; } states[] = {{DEPTH, GL_DEPTH_TEST}, {STENCIL, GL_STENCIL_TEST}, {BLEND, GL_BLEND}, {SCISSOR, GL_SCISSOR_TEST}};
    for (int i = 0; i < 4; i++) (flags & states[i].flag ? glEnable : glDisable)(states[i].what);
    glScissor(10, 10, 70, 50);
    glStencilFunc(GL_NOTEQUAL, 1, 255);
    glStencilOp(GL_KEEP, GL_KEEP, GL_REPLACE);
    glBlendFunc(GL_SRC_ALPHA, GL_ONE_MINUS_SRC_ALPHA);
}

static void draw(const struct scene *scene, GLuint program, float time) {
    static const GLfloat corners[] = {-1, -1, 0, 1, 1, -1, 0, 1, 0, 1, 0, 1, -1, 1, 0.5, 1, 1, 1, 0.5, 1, 0, -1, 0.5, 1};
    static const GLfloat extras[] = {0, 0, 0, 1, 1, 0, 0, 1, 0, 1, 0, 1, 1, 1, 0, 1, 0, 0, 1, 1, 1, 0, 1, 1};
    static const GLushort indexes[] = {0, 1, 2, 3, 4, 5, 2, 1, 0};
    GLfloat table[64];
    for (int i = 0; i < 64; i++) table[i] = (GLfloat)i / 64 * time;
    glUniform1f(glGetUniformLocation(program, "time"), time);
    glUniform4fv(glGetUniformLocation(program, "table"), 16, table);
    glVertexAttribPointer(0, 4, GL_FLOAT, GL_FALSE, 0, corners);
    glVertexAttribPointer(1, 4, GL_FLOAT, GL_FALSE, 0, extras);
    glEnableVertexAttribArray(0);
    glEnableVertexAttribArray(1);
    for (int i = 0; i < (scene->flags & MANY ? 50 : scene->flags & TWICE ? 2 : 1); i++) {
        glUniform1f(glGetUniformLocation(program, "time"), time + (GLfloat)i / 50);
        if (scene->flags & INDEXES) glDrawElements(scene->mode, 9, GL_UNSIGNED_SHORT, indexes);
        else glDrawArrays(scene->mode, 0, 6);
    }
}

static void show(const struct scene *scene, int frames) {
    int width = scene->flags & WIDE ? 1920 : 200, height = scene->flags & WIDE ? 1080 : 150;
    GLuint first = scene->flags & THROUGH ? frame_of(0, 128, 128) : 0, program = scene->vertex ? program_of(scene) : 0;
    GLuint last = frame_of(scene->flags, width, height);
    if (scene->format)
        for (int unit = 0; unit < 2; unit++) bind_texture(scene, unit);
    set_up(scene->flags);
    for (int i = 0; i < frames; i++) {
        float time = (float)i / (float)frames;
        glClearColor(time, 0.2f, 0.4f, 1);
        if (first) {
            glBindFramebuffer(GL_FRAMEBUFFER, first);
            glViewport(0, 0, 128, 128);
            glClear(GL_COLOR_BUFFER_BIT);
            draw(scene, program, time);
        }
        glBindFramebuffer(GL_FRAMEBUFFER, last);
        glViewport(0, 0, width, height);
        glClear(i % 3 == 2 ? GL_DEPTH_BUFFER_BIT : GL_COLOR_BUFFER_BIT | GL_DEPTH_BUFFER_BIT | GL_STENCIL_BUFFER_BIT);
        if (scene->vertex) draw(scene, program, time);
        glFinish();
    }
}

static void start(void) {
    static const EGLint wanted[] = {EGL_RENDERABLE_TYPE, EGL_OPENGL_ES2_BIT, EGL_SURFACE_TYPE, 0, EGL_NONE}, version[] = {EGL_CONTEXT_CLIENT_VERSION, 2, EGL_NONE};
    struct gbm_device *device = gbm_create_device(open("/dev/dri/renderD128", O_RDWR));
    EGLDisplay display = eglGetPlatformDisplay(EGL_PLATFORM_GBM_KHR, device, NULL);
    EGLConfig config;
    EGLint count = 0;
    if (!eglInitialize(display, NULL, NULL) || !eglBindAPI(EGL_OPENGL_ES_API) || !eglChooseConfig(display, wanted, &config, 1, &count) || count < 1) {
        fprintf(stderr, "scenes: no OpenGL ES 2 (EGL error %x)\n", eglGetError());
        exit(1);
    }
    eglMakeCurrent(display, EGL_NO_SURFACE, EGL_NO_SURFACE, eglCreateContext(display, config, EGL_NO_CONTEXT, version));
}

int main(int count, char **words) {
    int frames = count > 1 ? atoi(words[1]) : 40, shown = 0;
    start();
    printf("scenes: %s\n", glGetString(GL_RENDERER));
    for (size_t i = 0; i < sizeof scenes / sizeof *scenes; i++) {
        int asked = count <= 2;
        for (int k = 2; k < count; k++) asked |= strcmp(words[k], scenes[i].name) == 0;
        if (!asked) continue;
        show(&scenes[i], frames);
        shown++;
    }
    printf("scenes: %d scenes of %d frames\n", shown, frames);
    return 0;
}
